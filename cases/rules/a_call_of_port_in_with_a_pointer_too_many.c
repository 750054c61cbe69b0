void main() {
    port_in(TIM_FrameCounter, NULL); // error 44
}
