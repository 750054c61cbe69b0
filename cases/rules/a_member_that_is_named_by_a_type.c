typedef int T;
struct S { int a; };

void main() {
    S s;
    s.T = 1; // error 30
}
