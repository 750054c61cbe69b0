union U { int a; int* b; };

void main() {
    U a = { NULL }; // error 42
}
