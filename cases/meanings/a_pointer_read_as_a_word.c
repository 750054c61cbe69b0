// A pointer in a union is no word.
//b 9
//> stray 36 38
union U { int i; int* p; };
void main() { int k = 1; U u; u.p = &k; port_out(GPU_ClearColor, u.i); }
