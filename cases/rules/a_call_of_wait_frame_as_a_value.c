void main() {
    int a = wait_frame(); // error 42
}
