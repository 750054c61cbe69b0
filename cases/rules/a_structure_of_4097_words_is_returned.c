struct Big { int[4097] a; };

void main() {
    Big a;
    return a; // error 50
}
