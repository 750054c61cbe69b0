struct Big { int[4097] a; };

void main() {
    Big a;
    int[1] v = { 1, a }; // error 50
}
