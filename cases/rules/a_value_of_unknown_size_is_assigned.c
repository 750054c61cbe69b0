struct A;

void main() {
    A* p = NULL;
    *p = *p; // error 47
}
