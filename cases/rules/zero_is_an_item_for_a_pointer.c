struct W { int* a; };

void main() {
    W a = { 0 }; // error 42
}
