struct S { int a; };
struct T { int a; };

void main() {
    S* sp;
    T* tp;
    sp = tp; // error 42
}
