void main() {
    int* b = NULL;
    int[2] a = b; // error 42
}
