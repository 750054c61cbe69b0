void main() {
    for (int[1000001] a; ; ) ; // error 50
}
