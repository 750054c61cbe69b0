void main() {
    int[2]* vp;
    int* p;
    vp = p; // error 42
}
