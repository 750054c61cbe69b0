void main() {
    int a = TIM_FrameCounter; // error 40
}
