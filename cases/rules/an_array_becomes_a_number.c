void main() {
    int n;
    int[2] v;
    n = v; // error 42
}
