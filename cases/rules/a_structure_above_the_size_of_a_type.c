struct S { // error 50
    int[4194304] a;
    int b;
};

void main() { }
