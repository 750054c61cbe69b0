void main() {
    int* p;
    int[2]* vp;
    p = vp; // error 42
}
