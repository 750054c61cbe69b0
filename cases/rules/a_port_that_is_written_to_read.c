void main() {
    int a = port_in(GPU_Command); // error 45
}
