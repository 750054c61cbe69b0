struct W { int* a; };

void main() {
    int[2][2] vv;
    W a = { vv }; // error 42
}
