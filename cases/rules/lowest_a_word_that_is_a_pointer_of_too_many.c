void main() {
    port_out(Nothing, NULL, 1); // error 42
}
