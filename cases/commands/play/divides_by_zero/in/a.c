void main() { int z = 0; port_out(GPU_ClearColor, 1 / z); }
