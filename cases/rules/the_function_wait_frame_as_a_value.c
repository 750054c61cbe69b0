void main() {
    wait_frame; // error 42
}
