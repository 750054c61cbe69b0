// The ball that is highest is drawn white: a function that answers a pointer.
#include "examples/course/pictures.c"
#include "input.h"
#include "time.h"
#include "misc.h"

#define count 12

struct Ball
{
    int x, y;
    int dx, dy;
    int color;
};

Ball[count] balls;

// A pointer leads to the ball itself; a Ball as a parameter would be a copy.
void place(Ball* b)
{
    b->x = rand() % (screen_width - 16);
    b->y = rand() % 100;
    b->dx = rand() % 7 - 3;
    b->dy = 0;
    b->color = color_black + rand() % 0x1000000;
}

void move(Ball* b)
{
    b->dy += 1;
    b->x += b->dx;
    b->y += b->dy;
    if (b->x < 0 || b->x > screen_width - 16) b->dx = -b->dx;
    if (b->y > screen_height - 16)
    {
        b->y = screen_height - 16;
        b->dy = -b->dy * 9 / 10;
    }
}

Ball* highest()
{
    Ball* found = &balls[0];
    for (int n = 1; n < count; n++)
        if (balls[n].y < found->y) found = &balls[n];
    return found;
}

void main()
{
    define_pictures();
    for (int n = 0; n < count; n++) place(&balls[n]);
    while (true)
    {
        clear_screen(0xFF301008);
        for (int n = 0; n < count; n++) move(&balls[n]);
        for (int n = 0; n < count; n++) draw_picture(1, balls[n].x, balls[n].y, 0xFF505050);
        Ball* top = highest();
        draw_picture(1, top->x, top->y, color_white);
        end_frame();
    }
}
