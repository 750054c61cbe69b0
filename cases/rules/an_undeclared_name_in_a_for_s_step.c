void main() {
    for (; 1; x) ; // error 40
}
