struct A;

void main() {
    A* p = NULL;
    ( // error 47
        *p
    );
}
