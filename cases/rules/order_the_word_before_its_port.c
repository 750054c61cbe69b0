void main() {
    port_out(
        Nothing,
        y // error 40
    );
}
