int* p; void main() { if (p) halt(); port_out(GPU_ClearColor, 1); }
