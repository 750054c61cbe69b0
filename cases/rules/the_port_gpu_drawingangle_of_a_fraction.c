void main() {
    port_out(GPU_DrawingAngle, 1); // error 45
}
