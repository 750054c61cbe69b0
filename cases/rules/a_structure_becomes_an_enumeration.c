enum E { A };
struct S { int a; };

void main() {
    E e;
    S s;
    e = s; // error 42
}
