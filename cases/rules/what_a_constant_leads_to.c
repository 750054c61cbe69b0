void main() {
    *0; // error 42
}
