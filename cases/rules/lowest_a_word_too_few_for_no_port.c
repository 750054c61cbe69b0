void main() {
    port_out(Nothing); // error 44
}
