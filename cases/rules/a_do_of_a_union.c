union U { int a; };

void main() {
    U s;
    do ; while (s); // error 42
}
