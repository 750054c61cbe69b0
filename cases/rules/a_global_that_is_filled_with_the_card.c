int* p = card_memory(); // error 48

void main() { }
