// Without a card a write to it faults.
//> fault 1 at 0x
void main() { *card_memory() = 7; }
