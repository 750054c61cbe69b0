void main() {
    port_in(main); // error 45
}
