void main() {
    for (; x; ) ; // error 40
}
