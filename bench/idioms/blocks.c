#include "misc.h"
int[1000] a;
int[1000] b;
void main()
{
    memset(a, 7, 1000);
    memcpy(b, a, 1000);
    port_out(GPU_ClearColor, b[999]);
}
