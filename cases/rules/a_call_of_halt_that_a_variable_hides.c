void main() {
    int halt;
    halt(); // error 42
}
