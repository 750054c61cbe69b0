struct A;
typedef A[2] T; // error 47

void main() { }
