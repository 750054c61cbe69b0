void main() {
    port_out(0x202, 1); // error 45
}
