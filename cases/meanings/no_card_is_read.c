// A read of a card that is not there is fault 0.
//b 9
//> fault 0
void main() { port_out(GPU_ClearColor, *card_memory()); }
