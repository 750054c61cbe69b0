void main() {
    int** pp;
    int* p;
    pp = p; // error 42
}
