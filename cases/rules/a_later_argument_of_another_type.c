void take(int a, int b, int* c) { }

void main() {
    take(1, 2, 3); // error 42
}
