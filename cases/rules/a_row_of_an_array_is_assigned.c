void main() {
    int[2] v;
    int[2][2] w;
    w[1] = v; // error 42
}
