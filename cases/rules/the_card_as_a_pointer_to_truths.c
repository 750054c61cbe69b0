void main() {
    bool* a = card_memory(); // error 42
}
