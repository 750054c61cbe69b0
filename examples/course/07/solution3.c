// A structure is copied as a whole: each ball leaves a trace of where it was 5 frames ago.
#include "examples/course/pictures.c"
#include "input.h"
#include "time.h"
#include "misc.h"

#define count 12

struct Ball
{
    int x, y;
    int dx, dy;
    int color;
};

Ball[count] balls;

// A pointer leads to the ball itself; a Ball as a parameter would be a copy.
void place(Ball* b)
{
    b->x = rand() % (screen_width - 16);
    b->y = rand() % 100;
    b->dx = rand() % 7 - 3;
    b->dy = 0;
    b->color = color_black + rand() % 0x1000000;
}

void move(Ball* b)
{
    b->dy += 1;
    b->x += b->dx;
    b->y += b->dy;
    if (b->x < 0 || b->x > screen_width - 16) b->dx = -b->dx;
    if (b->y > screen_height - 16)
    {
        b->y = screen_height - 16;
        b->dy = -b->dy * 9 / 10;
    }
}

Ball[5][count] before;

void main()
{
    define_pictures();
    for (int n = 0; n < count; n++) place(&balls[n]);
    for (int frame = 0; true; frame++)
    {
        clear_screen(0xFF301008);
        for (int n = 0; n < count; n++)
        {
            if (frame >= 5) draw_picture(1, before[frame % 5][n].x, before[frame % 5][n].y, 0xFF404040);
            before[frame % 5][n] = balls[n];
            move(&balls[n]);
            draw_picture(1, balls[n].x, balls[n].y, balls[n].color);
        }
        end_frame();
    }
}
