void main() {
    port_out(); // error 44
}
