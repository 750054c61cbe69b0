void main() {
    int a;
    port_out(a, 1); // error 45
}
