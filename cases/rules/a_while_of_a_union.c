union U { int a; };

void main() {
    U s;
    while (s) ; // error 42
}
