// Half as bright: each part of the colour is half of 255.
#include "video.h"

void main()
{
    clear_screen(0xFF808080);
}
