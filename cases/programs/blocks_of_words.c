// Blocks of words set and copied, of any count, also onto themselves.
//> out 0x202 0x00000000
//> out 0x202 0x00000000
//> out 0x202 0x01ECA168
//> out 0x202 0x00000000
//> out 0x202 0x00000000
//> out 0x202 0x01ECA168
//> out 0x202 0x06459C66
//> out 0x202 0x065DF039
//> out 0x202 0x01A3A5EF
//> out 0x202 0x0978A27B
//> out 0x202 0x06BF3F85
//> out 0x202 0x015AAA76
//> out 0x202 0x0A22ED40
//> out 0x202 0x070BD5A2
//> out 0x202 0x014FDA8A
//> out 0x202 0x0AA592F9
//> out 0x202 0x0756518A
//> out 0x202 0x014B593D
//> out 0x202 0x0B1DE060
//> out 0x202 0x07A0395E
//> out 0x202 0x0148942C
//> out 0x202 0x0B8BC45F
//> out 0x202 0x07E941B5
//> out 0x202 0x01486D92
//> halted
#include "misc.h"
int[16] a;
int[16] b;
void show(int* p, int n)
{
    int s = 0;
    for (int i = 0; i < n; i++) s = s * 3 + p[i];
    port_out(GPU_ClearColor, s);
}
void main()
{
    int[8] counts = { -5, 0, 1, 3, 4, 5, 8, 11 };
    for (int k = 0; k < 8; k++)
    {
        for (int i = 0; i < 16; i++) { a[i] = i + 1; b[i] = 0; }
        memset(&b[1], k + 20, counts[k]);
        show(b, 16);
        memcpy(&b[2], a, counts[k]);
        show(b, 16);
        memcpy(&a[1], a, counts[k]);
        show(a, 16);
    }
}
