// An unwritten member is copied, and strays where it is read.
//b 9
//> out 514 1
//> stray 43 45
struct Q { int a; int b; };
void main() { Q x; x.a = 1; Q y = x; port_out(GPU_ClearColor, y.a); port_out(GPU_ClearColor, y.b); }
