// Structures of two words, whose words are held where their address stays: passed, given back, copied in loops and behind choices, in structures of structures and unions, by recursion; and those whose address goes elsewhere.
//> out 0x202 0x000001FE
//> out 0x202 0x00000523
//> out 0x202 0x000007C8
//> out 0x202 0x00000005
//> out 0x202 0x0000000F
//> out 0x202 0x0000000F
//> out 0x202 0x0000000D
//> out 0x202 0x00000052
//> out 0x202 0x00000066
//> out 0x202 0x00000011
//> out 0x202 0x00000FA1
//> out 0x202 0x00007149
//> out 0x202 0x0000002B
//> out 0x202 0x0000025E
//> out 0x202 0x00000066
//> out 0x202 0x000000C9
//> halted
struct Pair { int x, y; };
struct Box { Pair low; Pair high; };
struct Long { int a, b, c; };
union Word { int number; int[2] both; };
Pair kept;
Pair[3] row;
Pair sum(Pair a, Pair b)
{
    Pair c;
    c.x = a.x + b.x;
    c.y = a.y + b.y;
    return c;
}
Pair turned(Pair a)
{
    Pair b = a;
    int x = b.x;
    b.x = b.y;
    b.y = x;
    return b;
}
void change(Pair* p, int n)
{
    p->x += n;
    p->y *= n;
}
int deep(Pair a, int n)
{
    Pair b = a;
    b.x += n;
    if (n == 0) return b.x * 100 + b.y;
    Pair c = turned(b);
    return deep(c, n - 1) + b.x;
}
int chosen(int k)
{
    Pair p;
    p.x = 5;
    if (k > 2) p.x = k;
    p.y = k && p.x;
    Pair q;
    if (k > 3) q = sum(p, p);
    else q = turned(p);
    return q.x * 10 + q.y;
}
int within(Pair a)
{
    Box box;
    box.low = a;
    box.high = turned(box.low);
    box.low.x += box.high.y * 3;
    Long l;
    l.a = box.low.x;
    l.b = box.low.y;
    l.c = l.a * l.b;
    Long m = l;
    m.b++;
    return m.a + m.b + m.c + box.high.x;
}
int counted(int n)
{
    Pair p;
    p.x = 0;
    p.y = 1;
    for (int i = 0; i < n; i++)
    {
        Pair q = p;
        if (i == 3) continue;
        q.x += i;
        if (q.x > 20) break;
        p = sum(q, p);
        p.y -= q.y;
    }
    return p.x * 1000 + p.y;
}
int shared(int n)
{
    Word w;
    w.number = n;
    w.both[1] = w.both[0] + 1;
    Word v = w;
    v.number += v.both[1];
    return v.both[0];
}
void main()
{
    Pair s;
    Pair d;
    s.x = 1;
    s.y = 2;
    d = s;
    for (int i = 0; i < 4; i++) s = sum(s, d);
    port_out(GPU_ClearColor, s.x * 100 + s.y);
    Pair e = turned(s);
    change(&e, 3);
    port_out(GPU_ClearColor, e.x * 100 + e.y);
    port_out(GPU_ClearColor, deep(e, 4));
    for (int i = 0; i < 6; i++) port_out(GPU_ClearColor, chosen(i));
    port_out(GPU_ClearColor, within(d));
    port_out(GPU_ClearColor, counted(3));
    port_out(GPU_ClearColor, counted(9));
    port_out(GPU_ClearColor, shared(21));
    kept = d;
    row[1] = kept;
    row[0] = sum(row[1], kept);
    Pair* p = &row[0];
    *p = sum(*p, turned(*p));
    row[2] = p[1];
    port_out(GPU_ClearColor, row[0].x * 100 + row[0].y);
    port_out(GPU_ClearColor, row[2].x * 100 + row[2].y);
    kept = turned(kept);
    port_out(GPU_ClearColor, kept.x * 100 + kept.y);
}
