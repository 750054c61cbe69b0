void main() {
    port_out(INP_GamepadLeft, 1); // error 45
}
