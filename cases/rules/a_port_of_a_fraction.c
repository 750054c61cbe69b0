void main() {
    port_out(GPU_DrawingScaleX, 1); // error 45
}
