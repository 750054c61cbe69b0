// Without a card a read of it faults.
//> fault 0 at 0x
void main() { port_out(GPU_ClearColor, *card_memory()); }
