void main() {
    do ; while (halt()); // error 42
}
