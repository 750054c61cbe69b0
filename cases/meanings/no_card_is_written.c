// A write to a card that is not there is fault 1.
//b 9
//> fault 1
void main() { *card_memory() = 7; }
