struct Big { int[4097] a; };

void main() {
    Big a;
    a->a; // error 50
}
