struct S { int a; };
struct T { int a; };
void take(S a) { }

void main() {
    T t;
    take(t); // error 42
}
