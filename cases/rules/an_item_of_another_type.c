void main() {
    int*[2] a = { NULL, 1 }; // error 42
}
