// Where members lie: those of a structure one behind another, those of a union together.
//> out 0x202 0x00000000
//> out 0x202 0x00000001
//> out 0x202 0x00000000
//> out 0x202 0x00000000
//> out 0x202 0x00000001
//> halted
struct Q { int a; int[3] b; };
union U { int i; Q q; };
void main() {
    Q q; U u; int* first = (int*)&q; int* one = (int*)&u;
    port_out(GPU_ClearColor, &q.a - first); port_out(GPU_ClearColor, &q.b[0] - first);
    port_out(GPU_ClearColor, &u.i - one); port_out(GPU_ClearColor, &u.q.a - one); port_out(GPU_ClearColor, &u.q.b[0] - one);
}
