// Pointers lead from one to the next, up to NULL.
//> out 0x202 0x00000006
//> halted
struct N { int v; N* next; };
N[3] list;
void main() { int i; for (i = 0; i < 3; i++) { list[i].v = i + 1; list[i].next = NULL; } list[0].next = &list[1]; list[1].next = &list[2]; int s = 0; N* n = &list[0]; while (n != NULL) { s += n->v; n = n->next; } port_out(GPU_ClearColor, s); }
