void take(int a) { }

void main() {
    take(halt()); // error 42
}
