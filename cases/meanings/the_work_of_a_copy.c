// A structure is copied: the declaration, the call of main, the statement, three expressions; two cells read, and two stored.
//b 8
//u 10
//> halted
struct Q { int a; int b; };
Q x, y;
void main() { y = x; }
