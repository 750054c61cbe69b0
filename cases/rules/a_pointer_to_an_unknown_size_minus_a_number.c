struct A;

void main() {
    A* p = NULL;
    p - 1; // error 47
}
