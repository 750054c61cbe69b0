void main() {
    int[2]* vp;
    int[2] v;
    vp = v; // error 42
}
