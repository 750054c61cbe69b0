void main() {
    int[2][2] vv;
    int* a = vv; // error 42
}
