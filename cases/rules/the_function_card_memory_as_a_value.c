void main() {
    card_memory; // error 42
}
