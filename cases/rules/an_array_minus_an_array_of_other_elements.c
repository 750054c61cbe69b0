void main() {
    int[2] v;
    int[2][2] w;
    v - w; // error 42
}
