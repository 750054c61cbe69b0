void main() {
    break; // error 49
}
