// Addresses and sums one word of which is known, loads through them, and what stands between the two.
//< 3
//> in 0x402 0x00000003
//> out 0x202 0xFFFFFFF5
//> out 0x202 0xFFFFFFFC
//> out 0x202 0xFFFFFFFC
//> out 0x202 0xFFFFFFEC
//> out 0x202 0xFFFFFFED
//> out 0x202 0x00000020
//> out 0x202 0x00000002
//> out 0x202 0xFFFFFFF0
//> out 0x202 0xFFFFFFF5
//> out 0x202 0xFFFFFFF0
//> out 0x202 0xFFFFFFFE
//> out 0x202 0x7FFFFFFD
//> out 0x202 0x0000004D
//> out 0x202 0x00000004
//> out 0x202 0xFFFFFFFF
//> out 0x202 0xFFFFFFFE
//> out 0x202 0x00000007
//> out 0x202 0x00000018
//> halted
int[8] t;
int[4][3] m;
int last(int* p) { return p[-1]; }
void main()
{
    for (int i = 0; i < 8; i++) t[i] = i * i - 20;
    for (int y = 0; y < 4; y++)
        for (int x = 0; x < 3; x++) m[y][x] = y * 10 + x;
    int i = port_in(INP_GamepadLeft);
    port_out(GPU_ClearColor, t[i]);
    port_out(GPU_ClearColor, t[i + 1]);
    port_out(GPU_ClearColor, t[7 - i]);
    port_out(GPU_ClearColor, t[i - 3]);
    port_out(GPU_ClearColor, t[t[i + 2] - 4]);
    port_out(GPU_ClearColor, m[i][i - 1]);
    port_out(GPU_ClearColor, m[3 - i][2]);
    port_out(GPU_ClearColor, last(&t[i]));
    int* p = t;
    p += i;
    port_out(GPU_ClearColor, *p);
    port_out(GPU_ClearColor, *(p - 1));
    i = i - 5;
    port_out(GPU_ClearColor, i);
    i += 0x7FFFFFFF;
    port_out(GPU_ClearColor, i);
    t[i - 0x7FFFFFF6] = 77;
    port_out(GPU_ClearColor, t[7]);
    int j = 5;
    port_out(GPU_ClearColor, j % 3 + j / 2);
    port_out(GPU_ClearColor, (j - 10) / 3);
    port_out(GPU_ClearColor, (j - 10) % 3);
    j = j + (j = 2);
    port_out(GPU_ClearColor, j);
    int k = 3;
    t[k] = k + (k + 1) * 5 + (t[2] = 1);
    port_out(GPU_ClearColor, t[3]);
}
// Without a gamepad the port answers -3,600, which is no index.
//w stray at sums_and_loads_in_one.c:32
