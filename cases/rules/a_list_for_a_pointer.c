void main() {
    int* a = { NULL }; // error 42
}
