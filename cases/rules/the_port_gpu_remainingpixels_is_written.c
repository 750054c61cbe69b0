void main() {
    port_out(GPU_RemainingPixels, 1); // error 45
}
