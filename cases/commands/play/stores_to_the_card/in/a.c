void main() { int* c = card_memory(); *c = 7; }
