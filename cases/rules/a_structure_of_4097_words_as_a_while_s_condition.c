struct Big { int[4097] a; };

void main() {
    Big a;
    while (a) ; // error 50
}
