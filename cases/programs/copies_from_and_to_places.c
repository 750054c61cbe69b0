// Structures copied to and from globals, locals, elements, parameters and what pointers point to, in functions whose temporaries stand in registers and in slots.
//> out 0x202 0x0000007B
//> out 0x202 0x00000141
//> out 0x202 0x0000003C
//> out 0x202 0x0004E663
//> out 0x202 0x00000304
//> out 0x202 0x000001A5
//> halted
struct Three { int a, b, c; };
Three g;
Three h;
Three[4] row;
int total(Three t) { return t.a * 100 + t.b * 10 + t.c; }
Three turned(Three t)
{
    Three r;
    r.a = t.c;
    r.b = t.b;
    r.c = t.a;
    return r;
}
void swap(Three* p, Three* q)
{
    Three t = *p;
    *p = *q;
    *q = t;
}
int many(Three* p, int a, int b, int c, int d)
{
    Three t = *p;
    Three u = t;
    u.a += a;
    row[3] = u;
    *p = row[3];
    return a + b * 2 + c * 3 + d * 4 + total(t) + total(*p);
}
void main()
{
    Three one = { 1, 2, 3 };
    Three none = { 0, 0, 0 };
    g = one;
    h = turned(g);
    port_out(GPU_ClearColor, total(g));
    port_out(GPU_ClearColor, total(h));
    for (int i = 0; i < 4; i++)
    {
        row[i] = none;
        row[i].b = i;
        one = row[i];
        row[(i + 1) % 4] = one;
    }
    port_out(GPU_ClearColor, total(row[0]) + total(row[3]));
    swap(&g, &h);
    port_out(GPU_ClearColor, total(g) * 1000 + total(h));
    swap(&row[1], &row[1]);
    port_out(GPU_ClearColor, many(&g, 1, 2, 3, 4));
    port_out(GPU_ClearColor, total(g));
}
