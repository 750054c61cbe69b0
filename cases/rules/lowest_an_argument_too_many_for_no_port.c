void main() {
    port_in(Nothing, 1); // error 44
}
