void main() {
    halt() / 1; // error 42
}
