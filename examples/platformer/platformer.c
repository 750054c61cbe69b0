// A hero who runs and jumps through a level that scrolls: coins, enemies that walk to and fro, a flag at the end, and music. Texture 0 has the tiles and
// the figures, 16 by 16 points each, texture 1 the font. Sound 0 is the music, which plays in a loop; 1 a coin, 2 a jump, 3 a blow.
// Places are in sixteenths of a point, so that speeds below one point a frame add up.
#include "video.h"
#include "audio.h"
#include "input.h"
#include "time.h"
#include "math.h"
#include "misc.h"
#include "memcard.h"
#include "examples/text/text.c"
#include "examples/platformer/level.c"

#define tile_size 16
#define unit 16
#define tile_units 256
#define view_top 8
#define gravity 6
#define run_speed 40
#define jump_speed 115
#define most_enemies 16
#define sky 0xFFE8B870
#define music_channel 15

enum Region { grass, earth, brick, coin, flag, enemy, hero, hero_walks, hero_left, hero_walks_left };
enum State { title, playing, lost, won };

struct Body
{
    int x, y;
    int dx, dy;
    bool on_ground;
};

struct Enemy
{
    Body body;
    bool alive;
};

int[level_rows][level_columns] tiles;
Body player;
bool looks_left;
Enemy[most_enemies] enemies;
int enemy_count;
int coins, coins_in_level, lives, best;
int camera;
State state = title;

// ---- the level

// The tile in that column and row. Left and right of the level stands earth, above and below it nothing.
int tile_at(int column, int row)
{
    if (column < 0 || column >= level_columns) return '#';
    if (row < 0 || row >= level_rows) return '.';
    return tiles[row][column];
}

bool is_solid(int tile)
{
    return tile == '=' || tile == '#' || tile == 'b';
}

Body body_at(int column, int row)
{
    Body made;
    made.x = column * tile_units;
    made.y = row * tile_units;
    made.dx = 0;
    made.dy = 0;
    made.on_ground = false;
    return made;
}

void add_enemy(int column, int row)
{
    if (enemy_count == most_enemies) return;
    Enemy* e = &enemies[enemy_count];
    e->body = body_at(column, row);
    e->body.dx = -8;
    e->alive = true;
    enemy_count++;
}

void read_level()
{
    enemy_count = 0;
    coins_in_level = 0;
    for (int row = 0; row < level_rows; row++)
        for (int column = 0; column < level_columns; column++)
        {
            int tile = level_texts[row][column];
            if (tile == 'e') add_enemy(column, row);
            if (tile == 'h') player = body_at(column, row);
            if (tile == 'o') coins_in_level++;
            if (tile == 'e' || tile == 'h') tile = '.';
            tiles[row][column] = tile;
        }
}

// ---- bodies

// Whether a body of one tile there lies over a solid tile: one of the four tiles that it may touch.
bool is_blocked(int x, int y)
{
    int left = x / tile_units, right = (x + tile_units - 1) / tile_units;
    int top = y / tile_units, bottom = (y + tile_units - 1) / tile_units;
    if (x < 0) left = -1;
    if (y < 0) top = -1;
    return is_solid(tile_at(left, top)) || is_solid(tile_at(right, top)) || is_solid(tile_at(left, bottom)) || is_solid(tile_at(right, bottom));
}

// Moves a body by its speed, up to what blocks it, first across and then along. Whether it was stopped across.
bool move_body(Body* b)
{
    bool stopped = false;
    int step = 1;
    if (b->dx < 0) step = -1;
    for (int n = abs(b->dx); n > 0; n--)
    {
        if (is_blocked(b->x + step, b->y))
        {
            stopped = true;
            b->dx = 0;
            break;
        }
        b->x += step;
    }
    b->dy = min(b->dy + gravity, tile_units - 1);
    b->on_ground = false;
    step = 1;
    if (b->dy < 0) step = -1;
    for (int n = abs(b->dy); n > 0; n--)
    {
        if (is_blocked(b->x, b->y + step))
        {
            b->on_ground = b->dy > 0;
            b->dy = 0;
            break;
        }
        b->y += step;
    }
    return stopped;
}

bool touch(Body* a, Body* b)
{
    return abs(a->x - b->x) < tile_units - 48 && abs(a->y - b->y) < tile_units - 32;
}

// ---- enemies

// An enemy turns round at a wall, and where the ground ends before it.
void move_enemy(Enemy* e)
{
    int speed = e->body.dx;
    if (move_body(&e->body)) e->body.dx = -speed;
    if (!e->body.on_ground) return;
    int ahead = e->body.x;
    if (e->body.dx > 0) ahead += tile_units;
    if (!is_solid(tile_at(ahead / tile_units, e->body.y / tile_units + 1))) e->body.dx = -e->body.dx;
}

void lose_life()
{
    play_sound(3);
    lives--;
    if (lives == 0) state = lost;
    else player = body_at(2, 17);
}

// Who falls on an enemy strikes it; who meets it otherwise is struck.
void meet_enemies()
{
    for (int n = 0; n < enemy_count; n++)
    {
        Enemy* e = &enemies[n];
        if (!e->alive) continue;
        move_enemy(e);
        if (!touch(&player, &e->body)) continue;
        if (player.dy > 0 && player.y < e->body.y)
        {
            e->alive = false;
            player.dy = -jump_speed / 2;
            play_sound(3);
        }
        else
        {
            lose_life();
            return;
        }
    }
}

// ---- the hero

// The most coins are the card's first word.
void keep_best()
{
    if (coins <= best) return;
    best = coins;
    if (card_is_connected()) card_write_data(&best, 0, 1);
}

void take_tile(int column, int row)
{
    int tile = tile_at(column, row);
    if (tile == 'o')
    {
        tiles[row][column] = '.';
        coins++;
        keep_best();
        play_sound(1);
    }
    if (tile == 'F') state = won;
}

void take_tiles()
{
    int column = (player.x + tile_units / 2) / tile_units, row = (player.y + tile_units / 2) / tile_units;
    take_tile(column, row);
}

void steer()
{
    int wanted = 0;
    if (gamepad_left() > 0) wanted = -run_speed;
    if (gamepad_right() > 0) wanted = run_speed;
    // towards the wanted speed, by 4 a frame
    if (player.dx < wanted) player.dx = min(player.dx + 4, wanted);
    if (player.dx > wanted) player.dx = max(player.dx - 4, wanted);
    if (wanted != 0) looks_left = wanted < 0;
    if (gamepad_button_a() == 1 && player.on_ground)
    {
        player.dy = -jump_speed;
        play_sound(2);
    }
    // who lets go of the button jumps less high
    if (gamepad_button_a() < 0 && player.dy < -jump_speed / 3) player.dy = -jump_speed / 3;
}

void move_player()
{
    steer();
    move_body(&player);
    take_tiles();
    if (player.y > level_rows * tile_units) lose_life();
}

void move_camera()
{
    int wanted = player.x / unit - screen_width / 2;
    camera = max(0, min(wanted, level_columns * tile_size - screen_width));
}

// ---- drawing

int region_of(int tile)
{
    switch (tile)
    {
        case '=': return grass;
        case '#': return earth;
        case 'b': return brick;
        case 'o': return coin;
        case 'F': return flag;
    }
    return -1;
}

void draw_level()
{
    int first = camera / tile_size;
    for (int row = 0; row < level_rows; row++)
        for (int column = first; column <= first + screen_width / tile_size && column < level_columns; column++)
        {
            int region = region_of(tiles[row][column]);
            if (region < 0) continue;
            select_region(region);
            draw_region_at(column * tile_size - camera, view_top + row * tile_size);
        }
}

void draw_body(Body* b, int region)
{
    select_region(region);
    draw_region_at(b->x / unit - camera, view_top + b->y / unit);
}

void draw_hero()
{
    int region = hero;
    if (looks_left) region = hero_left;
    // the two pictures of each side stand one behind the other
    if (player.dx != 0 && get_frame_counter() / 6 % 2 == 0) region++;
    draw_body(&player, region);
}

void draw_status()
{
    draw_text("COINS", 12, 12, color_white);
    draw_number(coins, 48, 12, 0xFF60E0FF);
    draw_text("LIVES", 120, 12, color_white);
    draw_number(lives, 156, 12, 0xFF60E0FF);
    draw_text_right("BEST", 590, 12, color_white);
    draw_number_right(best, 620, 12, 0xFF60E0FF);
    if (state == title) draw_text_centred("START to run, A to jump", 150, 0xFF401010);
    if (state == lost) draw_text_centred("No life is left", 150, 0xFF401010);
    if (state == won) draw_text_centred("You have reached the flag", 150, 0xFF401010);
}

void draw_all()
{
    clear_screen(sky);
    select_texture(0);
    draw_level();
    for (int n = 0; n < enemy_count; n++)
        if (enemies[n].alive) draw_body(&enemies[n].body, enemy);
    draw_hero();
    draw_status();
}

// ---- the game

void define_regions()
{
    select_texture(0);
    for (int region = grass; region <= hero_walks_left; region++)
    {
        int x = region * tile_size;
        select_region(region);
        define_region(x, 0, x + tile_size - 1, tile_size - 1, x, 0);
    }
    define_font(1);
}

void start_music()
{
    select_sound(0);
    set_sound_loop(1);
    play_sound_in_channel(0, music_channel);
}

void begin()
{
    read_level();
    coins = 0;
    lives = 3;
    state = playing;
}

void main()
{
    define_regions();
    if (card_is_connected()) card_read_data(&best, 0, 1);
    read_level();
    start_music();
    while (true)
    {
        if (state == playing)
        {
            move_player();
            if (state == playing) meet_enemies();
        }
        else if (gamepad_button_start() == 1) begin();
        move_camera();
        draw_all();
        end_frame();
    }
}
