void main() {
}
} // error 30
