void main() { int[3] a; a[3] = 1; port_out(GPU_ClearColor, 1); }
