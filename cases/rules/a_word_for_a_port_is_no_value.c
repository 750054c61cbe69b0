void main() {
    port_out(GPU_ClearColor, halt()); // error 42
}
