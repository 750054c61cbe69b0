enum E { A };

void main() {
    A(); // error 42
}
