union U { int a; };

void main() {
    U u;
    1 && u; // error 42
}
