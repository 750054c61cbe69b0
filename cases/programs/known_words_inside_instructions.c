// Known words that stand inside instructions: of operators on both sides, in addresses of globals, elements and members, and at ports.
//> out 0x202 0x00000002
//> out 0x202 0xFFFFFFFE
//> out 0x202 0xFFFFFFFE
//> out 0x202 0x0000004C
//> out 0x202 0x00000006
//> out 0x202 0x000000C1
//> out 0x202 0x00000009
//> out 0x202 0x00000020
//> out 0x202 0x0001219C
//> out 0x202 0xFFFFFFEC
//> out 0x202 0x00000764
//> out 0x202 0x00000001
//> out 0x202 0x000003F3
//> out 0x202 0x00000002
//> halted
int g;
int h = 5;
int[20] a;
struct P { int x; int y; int z; };
P[6] ps;
int f(int n) { g = g + n; return 100 - n; }
int shift(int n) { return 1 << n; }
void store(int* p, int n) { p[0] = n; p[1] = n + 1; p[2] = 7; }
int last(P* p) { return p->z; }
void main()
{
    int i = 0;
    for (i = 0; i < 20; i++) a[i] = i * 3;
    g = 2;
    h = h - 7;
    port_out(GPU_ClearColor, g);
    port_out(GPU_ClearColor, h);
    port_out(GPU_ClearColor, 7 - a[3]);
    port_out(GPU_ClearColor, 1000 / (a[4] + 1));
    port_out(GPU_ClearColor, a[5] / 4 + a[5] % 4);
    port_out(GPU_ClearColor, f(3) + f(4));
    port_out(GPU_ClearColor, g);
    port_out(GPU_ClearColor, shift(5));
    store(&a[2], 40);
    port_out(GPU_ClearColor, a[2] + a[3] * 100 + a[4] * 10000);
    for (i = 0; i < 6; i++) { ps[i].x = i; ps[i].y = i * i; ps[i].z = ps[i].x - ps[i].y; }
    port_out(GPU_ClearColor, last(&ps[5]));
    ps[2] = ps[4];
    ps[2].y += 3;
    port_out(GPU_ClearColor, ps[2].x + ps[2].y * 100 + ps[2].z);
    i = 9;
    while (i > 2) i -= 2;
    port_out(GPU_ClearColor, i);
    port_out(GPU_ClearColor, (5 > i) + (i < 5) * 10 + (3 == i) * 100 + (i != 7) * 1000);
    port_out(GPU_ClearColor, (12 & i) | (i ^ 3));
}
