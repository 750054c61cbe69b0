int[4] table = { 1, 2, 3, 4 };
int at(int n) { return table[n]; }
void main() { port_out(GPU_ClearColor, at(2)); while (true) wait_frame(); }
