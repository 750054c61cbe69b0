enum E { A };

void main() {
    E[4] a = "abc"; // error 42
}
