void main() {
    port_out((GPU_ClearColor), 1); // error 45
}
