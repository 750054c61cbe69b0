void main() {
    switch (1) {
        case port_in(TIM_FrameCounter): ; // error 48
    }
}
