void main() {
    int* p;
    int[2][2] vv;
    p = vv; // error 42
}
