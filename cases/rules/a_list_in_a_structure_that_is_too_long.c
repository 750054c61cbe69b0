struct S { int a; };
struct T { S s; int b; };

void main() {
    T a = { { 1, 2 }, 3 }; // error 42
}
