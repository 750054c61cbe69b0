union A;

void main() {
    int a = sizeof(A); // error 47
}
