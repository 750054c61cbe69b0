// The card's words are 0 before they are written.
//b 9
//c zeros
//> out 514 7
//> out 514 0
//> halted
void main() { card_memory()[262143] = 7; port_out(GPU_ClearColor, card_memory()[262143]); port_out(GPU_ClearColor, *card_memory()); }
