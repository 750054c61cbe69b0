enum E { A };

void main() {
    E e;
    e = halt(); // error 42
}
