int[64] t;
void main()
{
    for (int i = 0; i < 64; i++) t[i] = i * 37 % 64;
    for (int i = 0; i < 64; i++)
        for (int j = 0; j < 63; j++)
            if (t[j] > t[j + 1]) { int h = t[j]; t[j] = t[j + 1]; t[j + 1] = h; }
    for (int i = 0; i < 64; i++) port_out(GPU_ClearColor, t[i]);
}
