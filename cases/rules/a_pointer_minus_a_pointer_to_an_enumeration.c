enum E { A };

void main() {
    int* p;
    E* q;
    p - q; // error 42
}
