void main() {
    do ;
    ; // error 30
}
