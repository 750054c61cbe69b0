void main() {
    port_out(gpu_clearcolor, 1); // error 45
}
