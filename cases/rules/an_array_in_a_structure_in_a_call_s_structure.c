struct S { int a; int[2] v; };
S f() {
    S s;
    return s;
}
struct T { S s; };
T g() {
    T t;
    return t;
}

void main() {
    g().s.v[0]; // error 43
}
