// A ball, a paddle and a wall of bricks. Texture 0 has a brick, the paddle and the ball, one beside the other, texture 1 the font. The best score is kept
// in the card's first word.
#include "video.h"
#include "audio.h"
#include "input.h"
#include "time.h"
#include "misc.h"
#include "math.h"
#include "memcard.h"
#include "examples/text/text.c"
#include "examples/bricks/wall.c"

enum Region { brick_region, paddle_region, ball_region };
enum State { waiting, playing, lost, won };

struct Ball { int x, y; int dx, dy; };

#define paddle_width 80
#define paddle_y 330
#define ball_size 8
#define gray 0xFF909090

Ball ball;
int paddle = 280;
int score, best, lives;
State state = waiting;

void define_regions()
{
    select_texture(0);
    select_region(brick_region);
    define_region(0, 0, 38, 14, 0, 0);
    select_region(paddle_region);
    define_region(40, 0, 119, 7, 40, 0);
    select_region(ball_region);
    define_region(120, 0, 127, 7, 120, 0);
    define_font(1);
}

void read_best()
{
    if (card_is_connected()) card_read_data(&best, 0, 1);
}

void keep_best()
{
    if (score <= best) return;
    best = score;
    if (card_is_connected()) card_write_data(&best, 0, 1);
}

void serve()
{
    ball.x = paddle + paddle_width / 2;
    ball.y = paddle_y - ball_size;
    ball.dx = 2;
    if (rand() % 2 == 0) ball.dx = -2;
    ball.dy = -3;
}

void begin()
{
    build_wall();
    score = 0;
    lives = 3;
    serve();
    state = playing;
}

void move_paddle()
{
    if (gamepad_left() > 0) paddle -= 5;
    if (gamepad_right() > 0) paddle += 5;
    paddle = max(0, min(paddle, screen_width - paddle_width));
}

void bounce_off_edges()
{
    if (ball.x <= 0) ball.dx = abs(ball.dx);
    if (ball.x >= screen_width - ball_size) ball.dx = -abs(ball.dx);
    if (ball.y <= 0) ball.dy = abs(ball.dy);
}

void bounce_off_paddle()
{
    if (ball.dy < 0 || ball.y + ball_size < paddle_y || ball.y > paddle_y + 8) return;
    int at = ball.x + ball_size / 2 - paddle;
    if (at < 0 || at > paddle_width) return;
    ball.dy = -abs(ball.dy);
    // the nearer to an end, the flatter
    ball.dx = (at - paddle_width / 2) / 10;
    play_sound(0);
}

void bounce_off_bricks()
{
    int x = ball.x + ball_size / 2, y = ball.y + ball_size / 2;
    bool across = hit_wall(x + ball.dx, y), along = hit_wall(x, y + ball.dy);
    if (across) ball.dx = -ball.dx;
    if (along) ball.dy = -ball.dy;
    if (!across && !along) return;
    score += 10;
    keep_best();
    play_sound(1);
}

void move_ball()
{
    ball.x += ball.dx;
    ball.y += ball.dy;
    bounce_off_edges();
    bounce_off_paddle();
    bounce_off_bricks();
    if (left == 0) state = won;
    if (ball.y < screen_height) return;
    lives--;
    if (lives == 0) state = lost;
    else serve();
}

int[wall_rows] row_colors = { 0xFF0000FF, 0xFF0080FF, 0xFF00FFFF, 0xFF00FF00, 0xFFFF8000, 0xFFFF00FF };

void draw_wall()
{
    select_region(brick_region);
    for (int row = 0; row < wall_rows; row++)
    {
        set_multiply_color(row_colors[row]);
        for (int column = 0; column < wall_columns; column++)
            if (standing[row][column]) draw_region_at(column * brick_width, wall_top + row * brick_height);
    }
    set_multiply_color(color_white);
}

void draw_all()
{
    clear_screen(color_black);
    select_texture(0);
    draw_wall();
    select_region(paddle_region);
    draw_region_at(paddle, paddle_y);
    if (state == playing)
    {
        select_region(ball_region);
        draw_region_at(ball.x, ball.y);
    }
    draw_text("SCORE", 20, 10, gray);
    draw_number(score, 56, 10, color_white);
    draw_text_centred("LIVES", 10, gray);
    draw_number(lives, 341, 10, color_white);
    draw_text_right("BEST", 560, 10, gray);
    draw_number_right(best, 620, 10, color_white);
    if (state == waiting) draw_text_centred("press start", 220, color_white);
}

void main()
{
    define_regions();
    read_best();
    build_wall();
    while (true)
    {
        move_paddle();
        switch (state)
        {
            case playing:
                move_ball();
                break;
            case lost:
            case won:
                state = waiting;
                break;
            default:
                if (gamepad_button_start() > 0) begin();
        }
        draw_all();
        end_frame();
    }
}
