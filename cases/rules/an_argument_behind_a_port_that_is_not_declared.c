void main() {
    port_out(GPU_ClearColor, x); // error 40
}
