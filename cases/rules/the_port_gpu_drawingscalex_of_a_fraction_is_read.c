void main() {
    int a = port_in(GPU_DrawingScaleX); // error 45
}
