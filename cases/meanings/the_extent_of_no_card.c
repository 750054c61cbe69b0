// A card that is not there has its extent: behind its last word a pointer may stand, and a read of that word is fault 0.
//b 9
//> out 514 262144
//> fault 0
void main() { int* p = card_memory() + 262144; port_out(GPU_ClearColor, p - card_memory()); port_out(GPU_ClearColor, *(p - 1)); }
