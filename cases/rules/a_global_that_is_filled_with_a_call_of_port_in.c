int a = port_in(TIM_FrameCounter); // error 48

void main() { }
