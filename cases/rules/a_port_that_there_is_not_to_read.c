void main() {
    int a = port_in(TIM_Nothing); // error 45
}
