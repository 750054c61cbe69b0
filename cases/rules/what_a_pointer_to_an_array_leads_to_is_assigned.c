void main() {
    int[2] v;
    int[2]* p = &v;
    *p = v; // error 42
}
