void main() {
    return x; // error 40
}
