// A result is an argument at once.
//> out 0x202 0x00000457
//> out 0x202 0xFFFFFBA9
//> halted
struct Q { int a; int b; };
Q add(Q x, Q y) { Q r = { x.a + y.a, x.b + y.b }; return r; }
Q two(int n) { Q r = { n, -n }; return r; }
void main() { Q q = add(add(two(1), two(10)), add(two(100), two(1000))); port_out(GPU_ClearColor, q.a); port_out(GPU_ClearColor, q.b); }
