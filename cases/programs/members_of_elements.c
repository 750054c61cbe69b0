// Members of elements of global arrays that are read at an index that is not known, and elements of rows at one that is: in sums, as arguments, as pointers,
// where the pointer to the element is used again, and where words stand in slots.
//> out 0x202 0x00000096
//> out 0x202 0x000117B5
//> out 0x202 0x000117AF
//> out 0x202 0x0000037A
//> out 0x202 0x000035FC
//> out 0x202 0xFFFFE02E
//> out 0x202 0x00000013
//> out 0x202 0x00000122
//> out 0x202 0x000002D7
//> out 0x202 0x0000007E
//> out 0x202 0xFFFFFFFB
//> out 0x202 0x00000013
//> out 0x202 0xFFFFFFF8
//> halted
struct Point { int x; int y; int z; };
struct Body { Point at; Point by; int[3] marks; int life; };
Point[6] points;
Body[4] bodies;
int[4][5] m;
int calls;
int next() { calls++; return calls; }
int weigh(int a, int b, int c) { return a * 100 + b * 10 + c; }
int of_life()
{
    int s = 0;
    for (int i = 0; i < 4; i++) s += bodies[i].life * bodies[3 - i].life + bodies[i].marks[2];
    return s;
}
int moved(int i)
{
    bodies[i].at.x = bodies[i].at.x + bodies[i].by.x;
    bodies[i].at.y += bodies[i].by.y;
    bodies[i].at.z -= bodies[i].by.z;
    return bodies[i].at.x * 10000 + bodies[i].at.y * 100 + bodies[i].at.z;
}
int twice(int i)
{
    Point* p = &points[i];
    int y = p->y;
    int z = points[i].z;
    p->z = 7;
    return y * 100 + z * 10 + points[i].z + p->x;
}
int many(int a, int b, int c, int d, int e, int f)
{
    int g = points[a].y + points[b].z;
    int h = points[c].z - points[d].y;
    int i = points[e].z * points[f].y;
    int j = m[a % 4][3] + m[b % 4][1] - m[c % 4][4];
    return g + h * 10 + i * 100 + j * 1000 + a - b + c - d + e - f + points[g % 6].z + points[(j & 7) % 6].y;
}
void main()
{
    for (int i = 0; i < 6; i++) { points[i].x = i + 1; points[i].y = i * 2 + 3; points[i].z = 20 - i; }
    for (int i = 0; i < 4; i++)
    {
        bodies[i].at = points[i];
        bodies[i].by = points[5 - i];
        for (int k = 0; k < 3; k++) bodies[i].marks[k] = i * 3 + k;
        bodies[i].life = 9 - i * 2;
        for (int k = 0; k < 5; k++) m[i][k] = i * 7 - k;
    }
    port_out(GPU_ClearColor, of_life());
    port_out(GPU_ClearColor, moved(0));
    port_out(GPU_ClearColor, moved(3));
    port_out(GPU_ClearColor, twice(2));
    port_out(GPU_ClearColor, many(0, 1, 2, 3, 4, 5));
    port_out(GPU_ClearColor, many(5, 4, 3, 2, 1, 0));
    int i = next();
    port_out(GPU_ClearColor, points[i].z);
    port_out(GPU_ClearColor, weigh(points[i].x, points[i + 1].y, points[i - 1].z));
    port_out(GPU_ClearColor, weigh(points[next()].y, i, points[next()].z));
    port_out(GPU_ClearColor, points[points[i].x].y + points[4 - i].z * points[i * 2].y);
    port_out(GPU_ClearColor, m[i][2] - m[i + 1][4] * 3 + m[3][i]);
    i = points[i].z;
    port_out(GPU_ClearColor, i);
    i = points[i - 15].y - i;
    port_out(GPU_ClearColor, i);
}
