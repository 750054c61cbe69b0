int f(int n)
{
    int x;
    if (n == 3)
    return x;
    return n; }
void main()
{
    int i = 0;
    while (true)
    {
        port_out(GPU_ClearColor, f(i));
        wait_frame();
        i = i + 1;
    }
}
