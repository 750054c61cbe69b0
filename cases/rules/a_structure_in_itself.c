struct S {
    int a;
    S b; // error 47
};

void main() { }
