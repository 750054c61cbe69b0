// A structure is passed and given as a whole.
//b 9
//> out 514 21
//> halted
struct Q { int a; int b; };
Q swap(Q q) { Q r; r.a = q.b; r.b = q.a; return r; }
void main() { Q x = {1, 2}; x = swap(x); port_out(GPU_ClearColor, x.a * 10 + x.b); }
