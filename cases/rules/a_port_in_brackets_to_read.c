void main() {
    int a = port_in((TIM_FrameCounter)); // error 45
}
