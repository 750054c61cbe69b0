void main() {
    int[2][2] v;
    int[2][3] w;
    v - w; // error 42
}
