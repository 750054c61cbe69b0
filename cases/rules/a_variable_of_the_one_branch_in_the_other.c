void main() {
    if (1) {
        int a;
    } else {
        a = 1; // error 40
    }
}
