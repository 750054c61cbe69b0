void main() {
    (void*) halt(); // error 42
}
