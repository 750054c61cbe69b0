void main() {
    halt() == halt(); // error 42
}
