void main() {
    int* a = "a" "b"; // error 30
}
