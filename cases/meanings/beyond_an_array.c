// A write beyond an array strays.
//b 9
//> stray 11 14
void main() { int[3] a; a[3] = 1; }
