void main() {
    do {
        int a;
    } while (a == 1); // error 40
}
