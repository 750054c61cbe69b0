void main() {
    int* p;
    int[*p] a; // error 48
}
