union U { int a; };

void main() {
    U u;
    u && 1; // error 42
}
