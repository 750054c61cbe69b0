// Structures copied and words moved in blocks, where registers hold what is read behind them: in loops that go on early and end, in blocks, before choices, and through parameters.
//> out 0x202 0x000000B9
//> out 0x202 0x0009AE4A
//> out 0x202 0x00000016
//> out 0x202 0x0006C077
//> out 0x202 0x000000D8
//> out 0x202 0x0000007A
//> out 0x202 0x000AE30F
//> out 0x202 0x00000001
//> out 0x202 0x00000065
//> out 0x202 0x000000C9
//> out 0x202 0x00000015
//> halted
#include "misc.h"
struct Four { int a, b, c, d; };
Four[3] row;
int[10] words;
int sum(Four* p)
{
    return p->a + p->b * 3 + p->c * 5 + p->d * 7;
}
int leaf(Four* p, Four* q, int n)
{
    int kept = n * 11;
    Four t = *p;
    *q = t;
    for (int i = 0; i < n; i++)
    {
        Four u = *q;
        u.a += i;
        *p = u;
        if (i == 1) continue;
        q->d = p->a + kept;
        Four w = *q;
        *p = w;
        if (w.d > 90) break;
        kept += t.b + n;
    }
    p->b = kept + n;
    return q->d * 2 + t.c + kept;
}
int two(Four* p, int k)
{
    Four x = *p;
    Four y = x;
    {
        Four z = y;
        z.c += k;
        y = z;
    }
    p++;
    *p = y;
    return k + y.c + x.a;
}
Four made(int a, int b)
{
    Four r;
    r.a = a;
    r.b = b;
    r.c = a + b;
    r.d = a * b;
    return r;
}
int chosen(Four* p, int k)
{
    Four x = *p;
    if (k) x.a = k;
    else x.b = k + 2;
    Four y = x;
    while (k > 0)
    {
        y = x;
        x.d += y.a + k;
        k--;
    }
    *p = y;
    return x.d * 2 + y.b + k;
}
void main()
{
    row[0] = made(1, 2);
    row[1] = made(3, 4);
    row[2] = made(5, 6);
    port_out(GPU_ClearColor, leaf(&row[0], &row[1], 4));
    port_out(GPU_ClearColor, sum(&row[0]) * 1000 + sum(&row[1]));
    port_out(GPU_ClearColor, two(&row[1], 9));
    port_out(GPU_ClearColor, sum(&row[1]) * 1000 + sum(&row[2]));
    port_out(GPU_ClearColor, chosen(&row[0], 3));
    port_out(GPU_ClearColor, chosen(&row[2], 0));
    port_out(GPU_ClearColor, sum(&row[0]) * 1000 + sum(&row[2]));
    for (int i = 0; i < 3; i++)
    {
        Four t = row[i];
        row[i] = row[2 - i];
        row[2 - i] = t;
        port_out(GPU_ClearColor, i * 100 + row[i].a);
    }
    memset(&words[0], 7, 5);
    memcpy(&words[5], &words[1], 4);
    words[9] = words[4] + words[8];
    port_out(GPU_ClearColor, words[5] + words[9]);
}
