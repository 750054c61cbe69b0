void take(int* a) { }

void main() {
    take(0); // error 42
}
