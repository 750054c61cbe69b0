struct Big { int[4097] a; };

void main() {
    Big a;
    int b;
    b += a; // error 50
}
