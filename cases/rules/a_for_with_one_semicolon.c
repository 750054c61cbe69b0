void main() {
    for (1; 2) ; // error 30
}
