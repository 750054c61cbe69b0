void main() {
    if 1 ; // error 30
}
