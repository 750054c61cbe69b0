// The wall: which bricks still stand, and the brick at a point.
#define wall_columns 16
#define wall_rows 6
#define brick_width 40
#define brick_height 16
#define wall_top 40

bool[wall_rows][wall_columns] standing;
int left;

void build_wall()
{
    for (int row = 0; row < wall_rows; row++)
        for (int column = 0; column < wall_columns; column++)
            standing[row][column] = true;
    left = wall_rows * wall_columns;
}

// takes the brick at the point away, where one stands there
bool hit_wall(int x, int y)
{
    if (y < wall_top || x < 0 || x >= screen_width) return false;
    int row = (y - wall_top) / brick_height;
    int column = x / brick_width;
    if (row >= wall_rows || !standing[row][column]) return false;
    standing[row][column] = false;
    left--;
    return true;
}
