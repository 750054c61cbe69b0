struct S { int a; };
struct T { int a; };

void main() {
    T t;
    S a = t; // error 42
}
