// A structure is returned and fills another: 5 up to the call, 9 for the list, 2 for the return and its operand, 2 cells read, 2 returned, and 2 filled for 2 each.
//b 8
//u 24
//> halted
struct Q { int a; int b; };
Q f() { Q p = {1, 2}; return p; }
void main() { Q q = f(); }
