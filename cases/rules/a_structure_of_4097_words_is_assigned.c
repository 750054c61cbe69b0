struct Big { int[4097] a; };

void main() {
    Big a, b;
    a = b; // error 50
}
