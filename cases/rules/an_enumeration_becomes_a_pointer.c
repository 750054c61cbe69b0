enum E { A };

void main() {
    int* p;
    E e;
    p = e; // error 42
}
