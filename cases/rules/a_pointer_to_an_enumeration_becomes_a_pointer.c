enum E { A };

void main() {
    int* p;
    E* f;
    p = f; // error 42
}
