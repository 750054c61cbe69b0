void take(int* a) { }

void main() {
    bool* q;
    take(q); // error 42
}
