struct Big { int[4097] a; };

void main() {
    Big a;
    1 + a; // error 50
}
