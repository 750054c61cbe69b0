enum E { A };

void main() {
    A = 1; // error 43
}
