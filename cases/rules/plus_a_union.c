union U { int a; };

void main() {
    U u;
    +u; // error 42
}
