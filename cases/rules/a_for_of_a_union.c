union U { int a; };

void main() {
    U s;
    for (; s; ) ; // error 42
}
