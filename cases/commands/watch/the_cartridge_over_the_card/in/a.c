void main() { int* c = card_memory(); port_out(GPU_ClearColor, *c); }
