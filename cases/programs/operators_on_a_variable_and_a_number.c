// Each operator with a variable that lives on before a number, and then behind one.
//< 12
//> in 0x402 0x0000000C
//> out 0x202 0x00000000
//> out 0x202 0x00000001
//> out 0x202 0x00000001
//> out 0x202 0x00000001
//> out 0x202 0x00000000
//> out 0x202 0x00000000
//> out 0x202 0x00000000
//> out 0x202 0x00000001
//> out 0x202 0x00000000
//> out 0x202 0x00000000
//> out 0x202 0x00000001
//> out 0x202 0x00000001
//> out 0x202 0x00000004
//> out 0x202 0x0000000E
//> out 0x202 0x0000000A
//> out 0x202 0x00000012
//> out 0x202 0x00000048
//> out 0x202 0x00000006
//> out 0x202 0x00000003
//> out 0x202 0x00000000
//> out 0x202 0x00000004
//> out 0x202 0x0000000E
//> out 0x202 0x0000000A
//> out 0x202 0x00000012
//> out 0x202 0x00000048
//> out 0x202 0xFFFFFFFA
//> out 0x202 0x00000000
//> out 0x202 0x00000006
//> out 0x202 0x0000000C
//> halted
void main()
{
    int x = port_in(INP_GamepadLeft);
    port_out(GPU_ClearColor, x == 20);
    port_out(GPU_ClearColor, x != 20);
    port_out(GPU_ClearColor, x < 20);
    port_out(GPU_ClearColor, x <= 12);
    port_out(GPU_ClearColor, x > 12);
    port_out(GPU_ClearColor, x >= 20);
    port_out(GPU_ClearColor, 20 == x);
    port_out(GPU_ClearColor, 20 != x);
    port_out(GPU_ClearColor, 20 < x);
    port_out(GPU_ClearColor, 20 <= x);
    port_out(GPU_ClearColor, 20 > x);
    port_out(GPU_ClearColor, 12 >= x);
    port_out(GPU_ClearColor, x & 6);
    port_out(GPU_ClearColor, x | 6);
    port_out(GPU_ClearColor, x ^ 6);
    port_out(GPU_ClearColor, x + 6);
    port_out(GPU_ClearColor, x * 6);
    port_out(GPU_ClearColor, x - 6);
    port_out(GPU_ClearColor, x >> 2);
    port_out(GPU_ClearColor, x % 6);
    port_out(GPU_ClearColor, 6 & x);
    port_out(GPU_ClearColor, 6 | x);
    port_out(GPU_ClearColor, 6 ^ x);
    port_out(GPU_ClearColor, 6 + x);
    port_out(GPU_ClearColor, 6 * x);
    port_out(GPU_ClearColor, 6 - x);
    port_out(GPU_ClearColor, 6 / x);
    port_out(GPU_ClearColor, 6 % x);
    port_out(GPU_ClearColor, x);
}
