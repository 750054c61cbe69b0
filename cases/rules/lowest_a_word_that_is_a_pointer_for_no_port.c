void main() {
    port_out(Nothing, NULL); // error 42
}
