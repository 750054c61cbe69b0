struct A;
A f(A* a) { // error 47
    return;
}

void main() { }
