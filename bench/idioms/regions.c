#include "video.h"
void main()
{
    for (int i = 0; i < 100; i++) draw_region_at(i, 20);
}
