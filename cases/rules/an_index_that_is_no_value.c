void main() {
    int[2] v;
    v[halt()]; // error 42
}
