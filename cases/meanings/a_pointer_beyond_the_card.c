// A pointer further behind the card is not subtracted.
//b 9
//> stray 19 23
void main() { int* p = card_memory() + 262145; port_out(GPU_ClearColor, p - card_memory()); }
