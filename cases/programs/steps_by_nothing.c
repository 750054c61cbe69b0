// First members and first elements, whose address is that of the whole, and those behind them.
//> out 0x202 0x000000FF
//> out 0x202 0x0003E03F
//> out 0x202 0x00000995
//> halted
struct Pair { int x, y; };
struct Rows { Pair[2] pairs; int[3] words; };
int sum(Pair* p)
{
    return p->x * 10 + p->y;
}
int pairs(int n)
{
    Pair c;
    c.x = n;
    c.y = c.x + 1;
    c.x = c.y * c.x;
    Pair* p = &c;
    p->x = p->x + p->y;
    return sum(&c);
}
int elements(int n)
{
    int[4] t;
    t[0] = n;
    t[1] = t[0] + 1;
    int* p = t;
    p[0] = p[0] + p[1];
    p = p + 1;
    p[0] = p[0] * 5;
    p[1] = p[0] - t[0];
    p = &t[0];
    return p[0] + p[1] * 100 + p[2] * 10000;
}
int rows(int n)
{
    int all = 0;
    for (int i = 0; i < 3; i++)
    {
        Rows r;
        r.pairs[0].x = n + i;
        r.pairs[0].y = r.pairs[0].x;
        r.pairs[1].x = r.pairs[0].y + 1;
        r.pairs[1].y = sum(&r.pairs[0]);
        r.words[0] = r.pairs[1].x;
        r.words[1] = r.pairs[1].y;
        r.words[2] = r.words[0] + r.words[1];
        all = all * 3 + r.words[2] + sum(&r.pairs[1]);
    }
    return all;
}
void main()
{
    port_out(GPU_ClearColor, pairs(4));
    port_out(GPU_ClearColor, elements(7));
    port_out(GPU_ClearColor, rows(5));
}
