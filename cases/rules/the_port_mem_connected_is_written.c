void main() {
    port_out(MEM_Connected, 1); // error 45
}
