void main() {
    int while; // error 30
}
