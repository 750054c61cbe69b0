struct A;
typedef A T;

void main() {
    int a = sizeof(T); // error 47
}
