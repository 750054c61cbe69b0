void main() {
    port_out(CAR_Connected, 1); // error 45
}
