void main() {
    port_out(GPU_ClearColor, 1, NULL); // error 44
}
