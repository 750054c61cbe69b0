// Beyond a card that is not there a read strays.
//b 9
//> stray 9 14
void main() { port_out(GPU_ClearColor, card_memory()[262144]); }
