void main() {
    x[0]; // error 40
}
