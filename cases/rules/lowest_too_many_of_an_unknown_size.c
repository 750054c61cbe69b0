struct A;

void main() {
    A[-1]* a; // error 47
}
