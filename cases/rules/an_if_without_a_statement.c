void main() {
    if (1)
    else ; // error 30
}
