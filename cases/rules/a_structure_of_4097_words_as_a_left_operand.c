struct Big { int[4097] a; };

void main() {
    Big a;
    a + 1; // error 50
}
