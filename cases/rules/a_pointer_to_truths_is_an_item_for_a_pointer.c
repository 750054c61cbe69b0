struct W { int* a; };

void main() {
    bool* q;
    W a = { q }; // error 42
}
