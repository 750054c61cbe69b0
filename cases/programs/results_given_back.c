// Words that operators make right where they are given back: early and late, in a loop, with a frame and without one, of variables and numbers, and by 0.
//< 7
//> in 0x402 0x00000007
//> out 0x202 0x00000003
//> out 0x202 0x00000004
//> out 0x202 0x00000031
//> out 0x202 0x00000004
//> out 0x202 0x0000005D
//> out 0x202 0x000003F6
//> out 0x202 0x000000C8
//> out 0x202 0x0000000E
//> out 0x202 0x00000003
//> out 0x202 0x00000004
//> out 0x202 0xFFFFFF38
//> out 0x202 0x00000051
//> out 0x202 0x00000003
//> fault 6 at 0x
int difference(int x, int y) { return y - x; }
int early(int x, int y) { if (x > y) return x - y; if (x == y) return x * y; return y / x; }
int number(int x) { if (x < 10) return 100 - x; return x + 1000; }
int framed(int n) { int[3] a; a[0] = n; a[1] = n * 2; a[2] = 5; if (n > 100) return a[1] - a[0]; if (n == 7) return a[2] / a[0] + a[1]; return a[0] % a[2]; }
int found(int n) { int i; for (i = 0; i < 10; i++) if (i * i > n) return i + 1; return 0 - n; }
int power(int x, int n) { if (n == 1) return x + 0; return x * power(x, n - 1); }
int twelfth(int x) { if (x == 0) return 1 / x; return 12 / x; }
void main()
{
    int x = port_in(INP_GamepadLeft);
    port_out(GPU_ClearColor, difference(x, 10));
    port_out(GPU_ClearColor, early(x, 3));
    port_out(GPU_ClearColor, early(x, 7));
    port_out(GPU_ClearColor, early(x, 30));
    port_out(GPU_ClearColor, number(x));
    port_out(GPU_ClearColor, number(x * 2));
    port_out(GPU_ClearColor, framed(200));
    port_out(GPU_ClearColor, framed(x));
    port_out(GPU_ClearColor, framed(13));
    port_out(GPU_ClearColor, found(x));
    port_out(GPU_ClearColor, found(200));
    port_out(GPU_ClearColor, power(3, 4));
    port_out(GPU_ClearColor, twelfth(x - 3));
    port_out(GPU_ClearColor, twelfth(x - 7));
}
