struct A;

void main() {
    int a;
    A a; // error 41
}
