struct Pair { int x, y; };
Pair sum(Pair a, Pair b)
{
    Pair c;
    c.x = a.x + b.x;
    c.y = a.y + b.y;
    return c;
}
void main()
{
    Pair s;
    Pair d;
    s.x = 0;
    s.y = 0;
    d.x = 1;
    d.y = 2;
    for (int i = 0; i < 100; i++) s = sum(s, d);
    port_out(GPU_ClearColor, s.x + s.y);
}
