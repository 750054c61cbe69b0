// Elements of arrays of arrays that are read at two indices that are not known: where the row's number is needed again, where both indices are one variable,
// where an index is negative or calls, in a sum of many, and rows of members.
//> out 0x202 0xA4784A48
//> out 0x202 0x00000018
//> out 0x202 0x0000019E
//> out 0x202 0xFFFFF9FD
//> out 0x202 0x000001D6
//> out 0x202 0x00000023
//> out 0x202 0x00000374
//> out 0x202 0xFFFFFFE3
//> out 0x202 0x00000488
//> out 0x202 0x00000047
//> out 0x202 0x0000004E
//> out 0x202 0x000000B2
//> out 0x202 0x0000009D
//> out 0x202 0x0000000D
//> halted
int[4][5] m;
int[6][6] square;
struct Row { int count; int[3] cells; };
Row[4] rows;
int calls;
int next() { calls++; return calls; }
int sum()
{
    int s = 0;
    for (int y = 0; y < 4; y++)
        for (int x = 0; x < 5; x++)
            s = s * 3 + m[y][x];
    return s;
}
int diagonal()
{
    int s = 0;
    for (int i = 0; i < 6; i++) s += square[i][i] - square[i][5 - i] + square[5 - i][i] * i;
    return s;
}
int product(int y, int x)
{
    int s = 0;
    for (int k = 0; k < 6; k++) s += square[y][k] * square[k][x];
    return s;
}
int of_cells(int i)
{
    int s = 0;
    for (int k = 0; k < rows[i].count; k++) s = s * 10 + rows[i].cells[k];
    return s;
}
int many(int a, int b, int c, int d, int e, int f)
{
    int g = a + b;
    int h = c + d;
    int i = e + f;
    int j = m[a][b] + m[b][c] + m[c][d];
    return j * 2 + m[d][e] + square[e][f] + square[f][g - a] + g + h * 10 + i * 100;
}
void main()
{
    for (int y = 0; y < 4; y++)
        for (int x = 0; x < 5; x++) m[y][x] = y * 100 + x * 7 - 150;
    for (int y = 0; y < 6; y++)
        for (int x = 0; x < 6; x++) square[y][x] = (y + 2) * (x + 3) - x * x * y;
    for (int y = 0; y < 4; y++)
    {
        rows[y].count = y;
        for (int x = 0; x < 3; x++) rows[y].cells[x] = (y * x + y + 1) % 10;
    }
    port_out(GPU_ClearColor, sum());
    port_out(GPU_ClearColor, diagonal());
    port_out(GPU_ClearColor, product(2, 3));
    port_out(GPU_ClearColor, product(5, 0));
    port_out(GPU_ClearColor, of_cells(3));
    port_out(GPU_ClearColor, of_cells(2));
    port_out(GPU_ClearColor, many(0, 1, 2, 3, 4, 5));
    int i = next();
    int j = i + 2;
    port_out(GPU_ClearColor, m[i][j]);
    port_out(GPU_ClearColor, m[j][i] + i * 1000 + j);
    port_out(GPU_ClearColor, m[next()][next()]);
    port_out(GPU_ClearColor, m[j][-i]);
    port_out(GPU_ClearColor, m[m[i][j] + 32][m[j][i] - 153]);
    i = m[j][i];
    port_out(GPU_ClearColor, i);
    j = square[j][j - 1];
    port_out(GPU_ClearColor, j);
}
