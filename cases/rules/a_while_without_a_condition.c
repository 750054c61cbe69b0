void main() {
    while () ; // error 30
}
