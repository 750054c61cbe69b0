struct W { bool a; };

void main() {
    W a = { NULL }; // error 42
}
