void main() {
    port_out(GPU_DrawingScaleY, 1); // error 45
}
