struct Big { int[4097] a; };

void main() {
    Big a;
    int[a] b; // error 50
}
