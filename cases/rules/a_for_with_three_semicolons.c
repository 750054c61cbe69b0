void main() {
    for (1; 2; 3;) ; // error 30
}
