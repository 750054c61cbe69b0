struct S {
    S a; // error 47
    int b;
    int b;
};

void main() { }
