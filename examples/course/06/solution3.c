// The greatest of some numbers, as so many balls.
#include "examples/course/pictures.c"
#include "math.h"

int[6] numbers = { 3, 14, 7, 22, 9, 11 };

int greatest(int* from, int count)
{
    int found = from[0];
    for (int n = 1; n < count; n++) found = max(found, from[n]);
    return found;
}

void main()
{
    define_pictures();
    clear_screen(0xFF301008);
    for (int n = 0; n < 6; n++)
        for (int i = 0; i < numbers[n]; i++) draw_picture(0, 40 + 18 * i, 40 + 24 * n, 0xFF80A0FF);
    for (int i = 0; i < greatest(numbers, 6); i++) draw_picture(1, 40 + 18 * i, 240, color_white);
}
