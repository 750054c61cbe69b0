void main() {
    int[port_in(TIM_FrameCounter)] a; // error 48
}
