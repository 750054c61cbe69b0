void main() {
    halt()[0]; // error 42
}
