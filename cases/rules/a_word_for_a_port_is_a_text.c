void main() {
    port_out(GPU_ClearColor, "a"); // error 42
}
