void take(int* a) { }

void main() {
    int[2][2] vv;
    take(vv); // error 42
}
