void main() {
    for (x; 1; ) ; // error 40
}
