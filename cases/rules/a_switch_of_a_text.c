void main() {
    switch ("a") { } // error 42
}
