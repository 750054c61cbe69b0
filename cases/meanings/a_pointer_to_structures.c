// A pointer steps over whole structures, which are assigned as a whole.
//b 9
//> out 514 4
//> halted
struct Q { int a; int b; };
Q[2] qs;
void main() { Q* p = qs; p++; p->b = 4; qs[0] = qs[1]; port_out(GPU_ClearColor, qs[0].b); }
