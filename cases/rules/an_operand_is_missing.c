void main() {
    int a = 1 + ; // error 30
}
