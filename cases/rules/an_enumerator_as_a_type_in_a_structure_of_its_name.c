enum E { S };
struct S {
    S* next; // error 41
};

void main() { }
