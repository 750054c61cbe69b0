union Big { int a; int[4097] b; };

void main() {
    Big a, b;
    a = b; // error 50
}
