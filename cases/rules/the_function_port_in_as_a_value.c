void main() {
    port_in; // error 42
}
