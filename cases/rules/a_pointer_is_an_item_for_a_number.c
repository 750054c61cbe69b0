struct W { int a; };

void main() {
    int* p;
    W a = { p }; // error 42
}
