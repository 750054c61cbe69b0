union U { int a; };

void main() {
    U s;
    if (s) ; // error 42
}
