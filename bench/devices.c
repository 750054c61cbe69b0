/* The devices of the console in plain C, doing the work of the kit's program bench: whole screens cleared, a texture as large as
   the screen drawn over it, mixed by its alpha, and frames of sixteen looping channels mixed. Arguments: clears, draws or mixes, and
   how many times. It puts a checksum of the pixels or of the samples then. It is the other side of the comparison in bench/run. */
#include <stdint.h>
#include <stdio.h>
#include <stdlib.h>
#include <string.h>

/* A device is not compiled for the arguments of its callers, as if it stood in a file of its own. */
#define DEVICE __attribute__((noipa)) static

enum { COLUMNS = 640, ROWS = 360, CHANNELS = 16, SAMPLES = 735 };

/* A checksum of words, of each and of their order. */
static uint32_t checksum(const uint32_t *words, size_t count) {
    uint32_t sum = 0;
    for (size_t k = 0; k < count; k++) sum = (sum ^ words[k]) * 0x01000193u;
    return sum;
}

/* Graphics: a pixel has red in its lowest byte, then green, blue and alpha. */

static uint32_t screen[COLUMNS * ROWS], texture[COLUMNS * ROWS];

DEVICE void clear(uint32_t colour) {
    uint32_t pixel = (colour & 0xFFFFFF) | 0xFF000000u;
    for (size_t k = 0; k < COLUMNS * ROWS; k++) screen[k] = pixel;
}

/* n / 255, rounded to nearest. */
static uint32_t quotient(uint32_t n) { return (n + 128 + ((n + 128) >> 8)) >> 8; }

static uint32_t part(uint32_t word, unsigned shift) { return word >> shift & 255; }

static uint32_t multiplied(uint32_t texel, uint32_t multiply, unsigned shift) {
    return quotient(part(texel, shift) * part(multiply, shift));
}

static uint32_t over(uint32_t colour, uint32_t alpha, uint32_t below) {
    return quotient(colour * alpha + below * (255 - alpha));
}

static uint32_t mixed(uint32_t texel, uint32_t multiply, uint32_t pixel) {
    uint32_t alpha = multiplied(texel, multiply, 24);
    uint32_t red = over(multiplied(texel, multiply, 0), alpha, part(pixel, 0));
    uint32_t green = over(multiplied(texel, multiply, 8), alpha, part(pixel, 8));
    uint32_t blue = over(multiplied(texel, multiply, 16), alpha, part(pixel, 16));
    return red | green << 8 | blue << 16 | 0xFF000000u;
}

/* Draws a texture as large as the screen over it. The sizes are constants and the arrays two, so that gcc -O2 takes several pixels at
   once, which it does not for sizes that come with the call. */
DEVICE void draw(uint32_t multiply) {
    for (size_t y = 0; y < ROWS; y++) {
        const uint32_t *from = texture + y * COLUMNS;
        uint32_t *to = screen + y * COLUMNS;
        for (size_t x = 0; x < COLUMNS; x++) to[x] = mixed(from[x], multiply, to[x]);
    }
}

static void clears(uint32_t times) {
    for (uint32_t time = 0; time < times; time++) clear(time);
}

static void draws(uint32_t times) {
    for (uint32_t k = 0; k < COLUMNS * ROWS; k++) texture[k] = (k * 0x9E3779B1u >> 8) | 0x80000000u;
    for (uint32_t time = 0; time < times; time++) draw(0xFFE0C0A0u);
}

/* Sound: a sample has its left side in the low 16 bits, its right in the high 16, both signed. */

struct sound { uint32_t count, loop_start, loop_end, *samples; };
struct channel { int is_playing, is_looping; uint32_t position; struct sound *sound; };

static struct sound sounds[CHANNELS];
static struct channel channels[CHANNELS];
static uint32_t samples[SAMPLES];

static uint32_t clamp(int32_t sum) {
    if (sum < -32768) sum = -32768;
    if (sum > 32767) sum = 32767;
    return (uint16_t)sum;
}

DEVICE void mix_frame(void) {
    for (int k = 0; k < SAMPLES; k++) {
        int32_t left = 0, right = 0;
        for (int c = 0; c < CHANNELS; c++) {
            struct channel *channel = &channels[c];
            if (!channel->is_playing) continue;
            struct sound *sound = channel->sound;
            uint32_t word = sound->samples[channel->position];
            left += (int16_t)word;
            right += (int16_t)(word >> 16);
            if (channel->is_looping && channel->position == sound->loop_end) {
                channel->position = sound->loop_start;
            } else if (++channel->position >= sound->count) {
                channel->position = 0;
                channel->is_playing = 0;
            }
        }
        samples[k] = clamp(left) | clamp(right) << 16;
    }
}

static void mixes(uint32_t times) {
    for (uint32_t c = 0; c < CHANNELS; c++) {
        uint32_t count = c * 100 + 1000;
        sounds[c] = (struct sound){count, c * 10, c * 73 + 400, malloc(4 * (size_t)count)};
        if (!sounds[c].samples) exit(1);
        for (uint32_t k = 0; k < count; k++) sounds[c].samples[k] = k * 0x9E3779B1u + c * 0x85EBCA6Bu;
        channels[c] = (struct channel){1, 1, 0, &sounds[c]};
    }
    for (uint32_t time = 0; time < times; time++) mix_frame();
}

int main(int argc, char **argv) {
    if (argc != 3) { puts("usage: devices clears, draws or mixes N"); return 0; }
    uint32_t times = strtoul(argv[2], 0, 10), last;
    clear(0);
    if (!strcmp(argv[1], "clears")) {
        clears(times);
        last = checksum(screen, COLUMNS * ROWS);
    } else if (!strcmp(argv[1], "draws")) {
        draws(times);
        last = checksum(screen, COLUMNS * ROWS);
    } else {
        mixes(times);
        last = checksum(samples, SAMPLES);
    }
    printf("%08X\n", last);
    return 0;
}
