void main() {
    while (x) ; // error 40
}
