// A call: that of main, the statement, the call and its argument; the return, the sum and its operands.
//b 8
//u 8
//> halted
int f(int x) { return x + 1; }
void main() { f(2); }
