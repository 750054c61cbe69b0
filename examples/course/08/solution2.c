// A text that comes letter by letter: so many of its letters are copied as frames went by, with a 0 behind them.
#include "examples/text/text.c"
#include "time.h"
#include "string.h"
#include "math.h"

int* whole = "Once upon a time there was a console that a proof had made.";

void main()
{
    define_font(0);
    int[80] part;
    while (true)
    {
        int letters = min(get_frame_counter() / 2, strlen(whole));
        for (int n = 0; n < letters; n++) part[n] = whole[n];
        part[letters] = 0;
        clear_screen(0xFF301008);
        draw_text(part, 100, 170, color_white);
        end_frame();
    }
}
