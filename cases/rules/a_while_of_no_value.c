void main() {
    while (halt()) ; // error 42
}
