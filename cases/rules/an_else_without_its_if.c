void main() {
    else ; // error 30
}
