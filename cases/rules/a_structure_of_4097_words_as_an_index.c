struct Big { int[4097] a; };

void main() {
    Big a;
    int[2] v;
    v[a]; // error 50
}
