void main() {
    card_memory(1); // error 44
}
