union U { int a; int[2] b; };

void main() {
    U a = { { 1, 2 } }; // error 42
}
