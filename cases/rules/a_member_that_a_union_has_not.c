union U { int a; };

void main() {
    U u;
    u.b = 1; // error 40
}
