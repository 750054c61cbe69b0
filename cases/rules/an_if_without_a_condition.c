void main() {
    if () ; // error 30
}
