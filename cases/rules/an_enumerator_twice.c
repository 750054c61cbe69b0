enum E { // error 41
    A,
    A
};

void main() { }
