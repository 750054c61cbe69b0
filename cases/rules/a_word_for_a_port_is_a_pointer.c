void main() {
    port_out(GPU_ClearColor, NULL); // error 42
}
