void main() {
    port_out(TIM_FrameCounter, 1); // error 45
}
