#include "math.h"
void main()
{
    int m = 50;
    for (int i = 0; i < 100; i++) m = max(m, i);
    port_out(GPU_ClearColor, m);
}
