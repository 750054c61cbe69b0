struct W { int a; };

void main() {
    W a = { halt() }; // error 42
}
