enum E { A };

void main() {
    E e;
    *e; // error 42
}
