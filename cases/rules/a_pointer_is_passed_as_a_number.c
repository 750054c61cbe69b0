void take(int a) { }

void main() {
    int* p;
    take(p); // error 42
}
