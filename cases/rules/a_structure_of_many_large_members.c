typedef int[4194304][1] T;
struct S { T a, b, c, d, e, f, g, h; }; // error 50

void main() { }
