void main() {
    wait_frame(1); // error 44
}
