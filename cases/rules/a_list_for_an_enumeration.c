enum E { A };

void main() {
    E a = { A }; // error 42
}
