// A call without room for its frame is too deep.
//b 20
//f 1000000 1000000
//> deep 18 20
void f() { int[4] a; a[0] = 0; f(); }
void main() { f(); }
