struct Big { int[4097] a; };

void main() {
    Big a;
    if (a) ; // error 50
}
