enum E { A };
enum F { B };

void main() {
    E* p;
    F* q;
    p == q; // error 42
}
