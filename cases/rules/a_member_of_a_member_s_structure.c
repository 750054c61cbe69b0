struct S { int a; };
struct T { S s; };

void main() {
    T t;
    t.a = 1; // error 40
}
