void f(int a, int[3] b) { } // error 42

void main() { }
