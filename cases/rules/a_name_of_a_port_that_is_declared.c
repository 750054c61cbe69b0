// A port's name stands where the first argument does, whatever else is named so.
int GPU_ClearColor = 1;

void main() {
    int TIM_FrameCounter = port_in(TIM_FrameCounter);
    port_out(GPU_ClearColor, GPU_ClearColor + TIM_FrameCounter);
}
