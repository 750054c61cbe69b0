struct A;

void main() {
    A* p = NULL;
    A* q = &p[0]; // error 47
}
