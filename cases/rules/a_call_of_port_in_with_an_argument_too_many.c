void main() {
    port_in(TIM_FrameCounter, 1); // error 44
}
