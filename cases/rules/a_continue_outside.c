void main() {
    continue; // error 49
}
