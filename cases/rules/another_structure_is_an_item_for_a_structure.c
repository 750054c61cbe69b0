struct S { int a; };
struct T { int a; };
struct W { S a; };

void main() {
    T t;
    W a = { t }; // error 42
}
