struct A;

void main() {
    A* p = NULL;
    --p; // error 47
}
