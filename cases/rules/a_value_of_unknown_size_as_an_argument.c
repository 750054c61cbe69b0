struct A;
void f(int a) { }

void main() {
    A* p = NULL;
    f(*p); // error 47
}
