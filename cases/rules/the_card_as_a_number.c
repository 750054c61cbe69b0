void main() {
    int a = card_memory(); // error 42
}
