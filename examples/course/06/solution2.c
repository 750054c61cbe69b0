// A board of 8 by 8: an array of arrays.
#include "examples/course/pictures.c"

int[8][8] board;

void main()
{
    define_pictures();
    for (int row = 0; row < 8; row++)
        for (int column = 0; column < 8; column++) board[row][column] = (row + column) % 2;
    clear_screen(0xFF301008);
    for (int row = 0; row < 8; row++)
        for (int column = 0; column < 8; column++)
        {
            int color = color_white;
            if (board[row][column] == 1) color = 0xFF606060;
            draw_picture(0, 256 + 16 * column, 116 + 16 * row, color);
        }
}
