struct Big { int[4097] a; };

void main() {
    Big a;
    a[0]; // error 50
}
