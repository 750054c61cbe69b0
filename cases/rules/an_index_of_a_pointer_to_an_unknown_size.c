struct A;

void main() {
    A* p = NULL;
    p[0]; // error 47
}
