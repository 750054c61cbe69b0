struct A;

void main() {
    A* p = NULL;
    (*p).a = 1; // error 40
}
