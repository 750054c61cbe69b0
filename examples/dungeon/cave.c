// The cave of a level: passages dug by recursion, with some walls broken through, and what of it the hero has seen.
#define cave_columns 53
#define cave_rows 29

struct Point { int x, y; };

enum Direction { north, east, south, west };

int[cave_rows][cave_columns] cave;
bool[cave_rows][cave_columns] seen;

Point point(int x, int y)
{
    Point p;
    p.x = x;
    p.y = y;
    return p;
}

// The point so many steps from p.
Point step(Point p, int direction, int steps)
{
    switch (direction)
    {
        case north: return point(p.x, p.y - steps);
        case east: return point(p.x + steps, p.y);
        case south: return point(p.x, p.y + steps);
    }
    return point(p.x - steps, p.y);
}

bool is_inside(Point p)
{
    return p.x > 0 && p.y > 0 && p.x < cave_columns - 1 && p.y < cave_rows - 1;
}

int at(Point p)
{
    return cave[p.y][p.x];
}

void put(Point p, int what)
{
    cave[p.y][p.x] = what;
}

// Digs from p on, in an order of directions by chance, wherever two steps on there is rock.
void dig(Point p)
{
    put(p, '.');
    int first = rand() % 4;
    for (int n = 0; n < 4; n++)
    {
        int direction = (first + n) % 4;
        Point next = step(p, direction, 2);
        if (!is_inside(next) || at(next) != '#') continue;
        put(step(p, direction, 1), '.');
        dig(next);
    }
}

Point random_floor()
{
    Point p;
    do p = point(1 + rand() % (cave_columns - 2), 1 + rand() % (cave_rows - 2)); while (at(p) != '.');
    return p;
}

// The cave of that level: the same one whenever it is asked for.
void make_cave(int level)
{
    srand(7 + 1000 * level);
    for (int y = 0; y < cave_rows; y++)
        for (int x = 0; x < cave_columns; x++)
        {
            cave[y][x] = '#';
            seen[y][x] = false;
        }
    dig(point(1, 1));
    for (int n = 0; n < 60; n++)
    {
        Point p = point(2 + rand() % (cave_columns - 4), 2 + rand() % (cave_rows - 4));
        put(p, '.');
    }
    put(random_floor(), '>');
}

// How far on the walk of `look` went from each point, and one; 0 where it did not come.
int[cave_rows][cave_columns] reached;

// The floor that leads on is followed for so many steps more, walls are seen and end it. Where the walk has come with as many steps left, all is seen.
void walk(Point p, int far)
{
    if (reached[p.y][p.x] > far) return;
    reached[p.y][p.x] = far + 1;
    seen[p.y][p.x] = true;
    if (far == 0 || at(p) == '#') return;
    for (int direction = north; direction <= west; direction++) walk(step(p, direction, 1), far - 1);
}

// What is seen from p, so many steps around. (Rock lies all around the cave, so no walk leaves it.)
void look(Point p, int far)
{
    memset(&reached[0][0], 0, cave_rows * cave_columns);
    walk(p, far);
}
