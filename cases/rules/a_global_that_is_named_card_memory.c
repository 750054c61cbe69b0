int card_memory; // error 41

void main() { }
