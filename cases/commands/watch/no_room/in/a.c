void f() { int[1000000] a; a[0] = 0; f(); } void main() { f(); }
