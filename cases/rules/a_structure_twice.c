struct S { int a; };
struct S { // error 41
    int b;
};

void main() { }
