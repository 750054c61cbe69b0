// A call whose structure nobody takes does what it does.
//> out 0x202 0x00000003
//> out 0x202 0x00000003
//> halted
struct Q { int a; int b; };
int n;
Q count() { n++; Q r = { n, n }; return r; }
void main() { count(); count(); int k = count().a; port_out(GPU_ClearColor, n); port_out(GPU_ClearColor, k); }
