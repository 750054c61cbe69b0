int[1000] gone;
void main()
{
    int n = 0;
    for (int i = 2; i < 1000; i++)
    {
        if (gone[i]) continue;
        n++;
        for (int j = i + i; j < 1000; j += i) gone[j] = 1;
    }
    port_out(GPU_ClearColor, n);
}
