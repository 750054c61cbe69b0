void main() {
    for (; halt(); ) ; // error 42
}
