// The same where all registers have something else, with arguments and variables in slots.
//> out 0x202 0x00000552
//> out 0x202 0x0000097F
//> out 0x202 0x00000155
//> out 0x202 0x000002D8
//> out 0x202 0x000016CD
//> out 0x202 0x522F2015
//> halted
int g;
int[10] a;
int many(int a0, int a1, int a2, int a3, int a4, int a5, int a6, int a7, int a8, int a9)
{
    int s = 0;
    int i = 0;
    while (i < 3)
    {
        s = s + a0 - a1 * 2 + a2 / 3 + a3 % 4 - (a4 & 5) + (a5 | 6) + (a6 ^ 7) + (a7 << 1) + ((a8 & 255) >> 2) + (10 - a9);
        a0 = a0 + 1;
        a1 = a1 + a0;
        a2 = a2 - a1;
        a3 = a3 + a2;
        a4 = a4 - a3;
        a5 = a5 + a4;
        a6 = a6 - a5;
        a7 = a7 + a6;
        a8 = a8 - a7;
        a9 = a9 + a8;
        a[i] = s;
        g = g + a[i];
        i = i + 1;
    }
    return s;
}
int nine(int p, int q, int r)
{
    int t = p + q;
    int u = q + r;
    int v = r + p;
    int w = t * u;
    int x = u * v;
    int y = v * t;
    for (int i = 0; i < 4; i++) { t += w; u -= x; v ^= y; w += 1; x -= 2; y *= 3; }
    return t + u + v + w + x + y + p + q + r;
}
void main()
{
    port_out(GPU_ClearColor, many(1, 2, 30, 41, 52, 63, 74, 85, 96, 7));
    port_out(GPU_ClearColor, g);
    port_out(GPU_ClearColor, a[0]);
    port_out(GPU_ClearColor, a[1]);
    port_out(GPU_ClearColor, nine(3, 4, 5));
    port_out(GPU_ClearColor, nine(nine(1, 2, 3), 4, nine(5, 6, 7)));
}
