enum E { A };

void main() {
    E e;
    int* p;
    e = p; // error 42
}
