// Elements at an index and a number, before it and behind it, and a word that is stored at an index.
//> out 0x202 0x00000003
//> out 0x202 0x00000006
//> out 0x202 0x0000000C
//> out 0x202 0x00000018
//> out 0x202 0x0000003E
//> out 0x202 0x00000001
//> out 0x202 0x00000002
//> out 0x202 0x00000014
//> halted
int[3] before = { 7, 7, 7 };
int[6] t = { 1, 2, 4, 8, 16, 32 };
int[6] u;
int sum(int n) { if (n > 4) return 0; return sum(n + 1) + t[n + 1]; }
void main()
{
    for (int i = 1; i < 5; i++) port_out(GPU_ClearColor, t[i + 1] - t[i - 1]);
    port_out(GPU_ClearColor, sum(0));
    for (int k = -1; k < 1; k++) port_out(GPU_ClearColor, t[k + 1]);
    int all = 0;
    for (int j = 1; j < 5; j++) u[j] = 5;
    for (int j = 0; j < 6; j++) all += u[j];
    port_out(GPU_ClearColor, all);
}
