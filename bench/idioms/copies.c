struct Nine { int[9] w; };
Nine a;
Nine b;
void main()
{
    a.w[8] = 7;
    for (int i = 0; i < 100; i++) b = a;
    port_out(GPU_ClearColor, b.w[8]);
}
