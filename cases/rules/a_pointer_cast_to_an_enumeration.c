enum E { A };

void main() {
    int* p;
    (E) p; // error 42
}
