// Results that an expression before made, and where they are made anew: an operand, or what has the result, changes between.
//> out 0x202 0x0001E504
//> out 0x202 0xFFFD88EC
//> out 0x202 0xFFFDBE00
//> out 0x202 0x00018F48
//> halted
int[32] table;
int f(int* p, int i, int k)
{
    int a = p[(i * 8 + k) & 31] + p[(i * 8 + k) & 31];
    i = i + 1;
    a = a * 3 + p[(i * 8 + k) & 31];
    int b = i;
    int c = (b << 2) ^ (i << 2);
    k = (i << 2) + c;
    i = i << 2;
    return a + (i << 2) + (b << 2) * 100 + k * 10000;
}
int g(int x, int y)
{
    int s = x * y;
    x = x * y;
    int t = x * y;
    y = s - t;
    int u = s - t;
    if (u == y) u = s * t;
    else u = x * y;
    return u + (s * t) * 3 + (s | t) - (t | s) * 5 + (x & y) * 7 + (x & y);
}
int h(int n)
{
    int r = 0;
    for (int i = 0; i < n; i++)
    {
        int w = i * 20 + n;
        r = r + (i * 20 + n) * w;
        w = w + 1;
        r = r ^ (i * 20 + n);
        i = i + (i * 20 + n) % 2;
    }
    return r;
}
void main()
{
    for (int i = 0; i < 32; i++)
        table[i] = i * i + 3;
    port_out(GPU_ClearColor, f(table, 2, 3));
    port_out(GPU_ClearColor, f(table, -5, 9));
    port_out(GPU_ClearColor, g(7, -9));
    port_out(GPU_ClearColor, h(11));
}
