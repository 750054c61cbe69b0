void main() {
    int** pp;
    int[2] v;
    pp = v; // error 42
}
