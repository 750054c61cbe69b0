void main() {
    if (halt()) ; // error 42
}
