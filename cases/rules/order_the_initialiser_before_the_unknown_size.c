struct A;

void main() {
    A a =
        y; // error 40
}
