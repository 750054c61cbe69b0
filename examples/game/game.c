// A block that the gamepad moves, and a coin that it catches. Texture 0 shows both, sound 0 is heard at each catch.
#include "video.h"
#include "audio.h"
#include "input.h"
#include "time.h"
#include "misc.h"

struct Thing { int x, y; int size; };

enum Region { block_region, coin_region };

Thing block = { 304, 164, 32 };
Thing coin = { 100, 100, 16 };
int score = 0;

void define_regions()
{
    select_texture(0);
    select_region(block_region);
    define_region(0, 0, 31, 31, 0, 0);
    select_region(coin_region);
    define_region(32, 0, 47, 15, 32, 0);
}

// the way of a frame along one axis, by the counts of its two controls
int way(int back, int on)
{
    int by = 0;
    if (back > 0) by -= 2;
    if (on > 0) by += 2;
    return by;
}

void move_block()
{
    block.x += way(gamepad_left(), gamepad_right());
    block.y += way(gamepad_up(), gamepad_down());
}

bool touch(Thing* a, Thing* b)
{
    return a->x < b->x + b->size && b->x < a->x + a->size
        && a->y < b->y + b->size && b->y < a->y + a->size;
}

void place_coin()
{
    coin.x = rand() % (screen_width - coin.size);
    coin.y = rand() % (screen_height - coin.size);
}

void draw(Region region, Thing* thing)
{
    select_region(region);
    draw_region_at(thing->x, thing->y);
}

void main()
{
    define_regions();
    while (true)
    {
        move_block();
        if (touch(&block, &coin))
        {
            score++;
            play_sound(0);
            place_coin();
        }
        clear_screen(color_black);
        draw(coin_region, &coin);
        draw(block_region, &block);
        end_frame();
    }
}
