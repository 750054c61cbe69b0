// An operand that is a variable has the value that it had when it was read, though it changes before the operator is done.
//> out 0x202 0x00000006
//> out 0x202 0x0000000A
//> out 0x202 0xFFFFFFFF
//> out 0x202 0x00000001
//> out 0x202 0x00000017
//> out 0x202 0x00000003
//> out 0x202 0x00000009
//> out 0x202 0x0000000C
//> halted
int pair(int a, int b) { return a * 10 + b; }
int passed(int x) { return pair(x, x = 3); }
void main()
{
    int x = 1;
    int y = x + (x = 5);
    port_out(GPU_ClearColor, y);
    y = x + x;
    port_out(GPU_ClearColor, y);
    x = 7;
    y = x - ++x;
    port_out(GPU_ClearColor, y);
    x = 4;
    y = x++ < x;
    port_out(GPU_ClearColor, y);
    port_out(GPU_ClearColor, passed(2));
    int[4] a;
    for (int i = 0; i < 4; i++) a[i] = i;
    int k = 2;
    a[k] = (k = 3);
    port_out(GPU_ClearColor, a[2]);
    int s = 0;
    for (int i = 0; i < 3; i++)
    {
        int before = s;
        s = s + i * 3;
        if (s < before) s = 100;
    }
    port_out(GPU_ClearColor, s);
    int t = s;
    s = 2;
    t = t + s + 1;
    port_out(GPU_ClearColor, t);
}
