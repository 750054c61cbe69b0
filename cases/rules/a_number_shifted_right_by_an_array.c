void main() {
    int[2] v;
    1 >> v; // error 42
}
