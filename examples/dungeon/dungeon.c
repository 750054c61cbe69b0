// A hero who goes down through caves, step by step: each press of a direction is a turn, in which the monsters move too. Everything is drawn with the
// font, texture 0. The button Start keeps the hero on the memory card, from which the next game goes on; whoever dies begins anew.
#include "video.h"
#include "input.h"
#include "time.h"
#include "math.h"
#include "misc.h"
#include "memcard.h"
#include "examples/text/text.c"
#include "examples/dungeon/cave.c"
#include "examples/dungeon/pool.c"
#include "examples/dungeon/log.c"

#define cell_width 12
#define cell_height 10
#define cave_x 2
#define cave_y 18
#define sight 7
#define card_mark 0x31435643

// What is kept on the card, a mark before it that tells a card of this game.
struct Hero
{
    int mark;
    int level;
    int health, strength;
    int gold;
    int turns;
};

Hero hero;
Point place;
bool is_dead;

// ---- the hero

void new_hero()
{
    Hero made = { card_mark, 1, 20, 5, 0, 0 };
    hero = made;
    is_dead = false;
}

void keep_hero()
{
    if (!card_is_connected())
    {
        say("There is no card to keep you on.");
        return;
    }
    card_write_data((int*) (void*) &hero, 0, sizeof(Hero));
    say("You are kept.");
}

bool read_hero()
{
    if (!card_is_connected()) return false;
    Hero kept;
    card_read_data((int*) (void*) &kept, 0, sizeof(Hero));
    if (kept.mark != card_mark) return false;
    hero = kept;
    is_dead = false;
    return true;
}

// ---- monsters

int[5] letters = { 'r', 's', 'O', '!', '$' };
int[5] colors = { 0xFF6080C0, 0xFF40C040, 0xFF4040E0, 0xFFE060E0, 0xFF40E0FF };

void fill_cave()
{
    empty_pool();
    int monsters = min(6 + 2 * hero.level, 24);
    for (int n = 0; n < monsters; n++)
    {
        int kind = rand() % min(1 + hero.level, 3);
        add_thing(kind, random_floor(), 3 + 3 * kind);
    }
    for (int n = 0; n < 4; n++) add_thing(potion, random_floor(), 0);
    for (int n = 0; n < 8; n++) add_thing(gold, random_floor(), 0);
}

void enter_level()
{
    make_cave(hero.level);
    place = point(1, 1);
    fill_cave();
    look(place, sight);
    say_number("You are in cave %.", hero.level);
}

void hurt_hero(Thing* by)
{
    int harm = 1 + rand() % (2 + by->kind);
    hero.health -= harm;
    if (by->kind == ogre) say_number("The ogre strikes you for %.", harm);
    else say_number("Something bites you for %.", harm);
    if (hero.health > 0) return;
    is_dead = true;
    say_number("You die with % gold. A starts anew.", hero.gold);
}

// A monster that is near comes nearer, along the longer way first, and strikes where it would step on the hero.
void move_monster(Thing* m)
{
    int dx = place.x - m->place.x, dy = place.y - m->place.y;
    if (abs(dx) + abs(dy) > sight) return;
    int across = east, along = south;
    if (dx < 0) across = west;
    if (dy < 0) along = north;
    int direction = along;
    if (abs(dx) > abs(dy)) direction = across;
    Point next = step(m->place, direction, 1);
    if (at(next) == '#')
    {
        if (direction == along) direction = across;
        else direction = along;
        if (direction == across && dx == 0 || direction == along && dy == 0) return;
        next = step(m->place, direction, 1);
    }
    if (next.x == place.x && next.y == place.y) hurt_hero(m);
    else if (at(next) != '#' && thing_at(next) == NULL) m->place = next;
}

void move_monsters()
{
    for (Thing* t = things; t != NULL && !is_dead; t = t->next)
        if (is_monster(t)) move_monster(t);
}

// ---- a turn

void strike(Thing* m)
{
    int harm = 1 + rand() % hero.strength;
    m->health -= harm;
    if (m->health > 0)
    {
        say_number("You hit it for %.", harm);
        return;
    }
    say("It is slain.");
    take_out(m);
    hero.strength += rand() % 4 / 3;
}

void pick_up(Thing* t)
{
    if (t->kind == gold)
    {
        int found = 5 + rand() % (10 * hero.level);
        hero.gold += found;
        say_number("You find % gold.", found);
    }
    else
    {
        hero.health += 8;
        say("You drink a potion.");
    }
    take_out(t);
}

void go(int direction)
{
    hero.turns++;
    Point next = step(place, direction, 1);
    if (at(next) == '#')
    {
        say("A wall.");
        return;
    }
    Thing* there = thing_at(next);
    if (there != NULL && is_monster(there)) strike(there);
    else
    {
        place = next;
        if (there != NULL) pick_up(there);
        if (at(place) == '>')
        {
            hero.level++;
            enter_level();
            return;
        }
    }
    look(place, sight);
    move_monsters();
}

// A direction that is held goes on after some frames.
bool is_asked(int frames)
{
    return frames == 1 || frames > 12 && frames % 4 == 0;
}

void take_turn()
{
    if (is_dead)
    {
        if (gamepad_button_a() != 1) return;
        new_hero();
        enter_level();
        return;
    }
    if (is_asked(gamepad_up())) go(north);
    else if (is_asked(gamepad_right())) go(east);
    else if (is_asked(gamepad_down())) go(south);
    else if (is_asked(gamepad_left())) go(west);
    else if (gamepad_button_start() == 1) keep_hero();
}

// ---- drawing

void draw_cell(int letter, Point p, int color)
{
    set_multiply_color(color);
    draw_character(letter, cave_x + p.x * cell_width, cave_y + p.y * cell_height);
}

void draw_cave()
{
    select_texture(font_texture);
    for (int y = 0; y < cave_rows; y++)
        for (int x = 0; x < cave_columns; x++)
        {
            if (!seen[y][x]) continue;
            int color = 0xFF404850;
            if (cave[y][x] == '#') color = 0xFF7890A0;
            if (cave[y][x] == '>') color = color_white;
            draw_cell(cave[y][x], point(x, y), color);
        }
}

void draw_things()
{
    for (Thing* t = things; t != NULL; t = t->next)
        if (seen[t->place.y][t->place.x]) draw_cell(letters[t->kind], t->place, colors[t->kind]);
}

int draw_status_of(int* name, int number, int x)
{
    draw_text(name, x, 4, 0xFF909090);
    x += text_width(name) + character_width;
    draw_number(number, x, 4, color_white);
    return x + (number_length(number) + 2) * character_width;
}

void draw_all()
{
    clear_screen(color_black);
    draw_cave();
    draw_things();
    int color = color_white;
    if (is_dead) color = color_red;
    draw_cell('@', place, color);
    set_multiply_color(color_white);
    int x = draw_status_of("cave", hero.level, 12);
    x = draw_status_of("health", max(hero.health, 0), x);
    x = draw_status_of("strength", hero.strength, x);
    x = draw_status_of("gold", hero.gold, x);
    draw_status_of("turns", hero.turns, x);
    draw_log();
}

void main()
{
    define_font(0);
    if (!read_hero()) new_hero();
    enter_level();
    while (true)
    {
        take_turn();
        draw_all();
        end_frame();
    }
}
