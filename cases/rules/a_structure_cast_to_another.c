struct S { int a; };
struct T { int a; };

void main() {
    S s;
    (T) s; // error 42
}
