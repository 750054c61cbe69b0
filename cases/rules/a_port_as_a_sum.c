void main() {
    int a = port_in(TIM_FrameCounter + 0); // error 45
}
