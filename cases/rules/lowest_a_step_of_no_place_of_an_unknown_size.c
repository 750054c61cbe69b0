struct A;
A* f() {
    return NULL;
}

void main() {
    f()++; // error 43
}
