void main() {
    if (x) ; // error 40
}
