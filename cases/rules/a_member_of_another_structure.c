struct S { int a; };
struct T { int b; };

void main() {
    T t;
    t.a = 1; // error 40
}
