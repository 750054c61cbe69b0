union U { int a; int b; };

void main() {
    U a = { 1, 2 }; // error 42
}
