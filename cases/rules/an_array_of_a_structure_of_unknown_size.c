struct A;

void main() {
    A[2]* a; // error 47
}
