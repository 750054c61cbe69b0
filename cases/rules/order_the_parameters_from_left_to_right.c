void f(
    int[3] a, // error 42
    int b,
    int b);

void main() { }
