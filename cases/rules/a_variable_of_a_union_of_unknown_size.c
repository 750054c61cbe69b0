union A;

void main() {
    A a; // error 47
}
