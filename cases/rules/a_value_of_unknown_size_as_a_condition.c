struct A;

void main() {
    A* p = NULL;
    if (*p) ; // error 47
}
