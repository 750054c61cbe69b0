void main() {
    port_out(GPU_ClearColor, 1, 2); // error 44
}
