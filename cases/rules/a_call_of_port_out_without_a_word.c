void main() {
    port_out(GPU_ClearColor); // error 44
}
