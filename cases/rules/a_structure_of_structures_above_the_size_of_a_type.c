struct S { int[2097152] a; };
struct T { // error 50
    S a, b;
    int c;
};

void main() { }
