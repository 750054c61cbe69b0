void main() {
    int a = port_out(GPU_ClearColor, 1); // error 42
}
