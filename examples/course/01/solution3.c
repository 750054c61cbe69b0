// Two colours, of which the second is what is seen.
#include "video.h"

void main()
{
    clear_screen(color_red);
    clear_screen(0xFF00FF00);
}
