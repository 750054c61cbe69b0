// A colour that fills the screen, for one frame.
#include "video.h"

void main()
{
    clear_screen(color_red);
}
