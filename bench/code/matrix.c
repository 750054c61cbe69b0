int[8][8] a;
int[8][8] b;
int[8][8] c;
void main()
{
    for (int i = 0; i < 8; i++)
        for (int j = 0; j < 8; j++) { a[i][j] = i + j; b[i][j] = i - j; }
    for (int i = 0; i < 8; i++)
        for (int j = 0; j < 8; j++)
        {
            int s = 0;
            for (int k = 0; k < 8; k++) s += a[i][k] * b[k][j];
            c[i][j] = s;
        }
    for (int i = 0; i < 8; i++) port_out(GPU_ClearColor, c[i][7 - i]);
}
