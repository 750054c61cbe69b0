struct S { int a; };
struct W { S a; };

void main() {
    int n;
    W a = { n }; // error 42
}
