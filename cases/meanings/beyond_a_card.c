// Beyond the card a read strays.
//b 9
//c zeros
//> stray 9 14
void main() { port_out(GPU_ClearColor, card_memory()[262144]); }
