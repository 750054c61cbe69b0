// A division by 0 behind a sum, where the word divided has its last use, faults; what came before stands.
//> out 0x202 0x00000004
//> out 0x202 0x00000000
//> fault 6 at 0x
int g;
int over(int a, int b)
{
    int q = (a + 1) / b;
    return q + 1;
}
void main()
{
    g = 4;
    port_out(GPU_ClearColor, over(12, g));
    g = g - 4;
    port_out(GPU_ClearColor, g);
    port_out(GPU_ClearColor, over(12, g));
    port_out(GPU_ClearColor, 9);
}
