/* Writes as many bytes as a console's run of so many frames, by the same pieces: two heads of 16 bytes, then per frame 921,600 bytes of
   a screen to the one file and 2,940 bytes of samples to the other. Arguments: the two files and the number of frames. It is the other
   side of the comparison of writing in bench/run. */
#include <fcntl.h>
#include <stdint.h>
#include <stdio.h>
#include <stdlib.h>
#include <string.h>
#include <unistd.h>

static int write_whole(int file, const unsigned char *bytes, size_t count) {
    while (count > 0) {
        ssize_t taken = write(file, bytes, count);
        if (taken <= 0) return 0;
        bytes += taken;
        count -= taken;
    }
    return 1;
}

/* The words as bytes, the lowest first, in the buffer. */
static void put_words(const uint32_t *words, size_t count, unsigned char *into) {
    for (size_t k = 0; k < count; k++) {
        into[4 * k] = words[k];
        into[4 * k + 1] = words[k] >> 8;
        into[4 * k + 2] = words[k] >> 16;
        into[4 * k + 3] = words[k] >> 24;
    }
}

int main(int argc, char **argv) {
    if (argc != 4) { puts("usage: frames FRAMES SAMPLES COUNT"); return 1; }
    static uint32_t screen[230400], samples[735];
    static unsigned char buffer[1048576];
    for (size_t k = 0; k < 230400; k++) screen[k] = 0xFF000000u;
    int frames_file = open(argv[1], O_WRONLY | O_CREAT | O_TRUNC, 0666), samples_file = open(argv[2], O_WRONLY | O_CREAT | O_TRUNC, 0666);
    if (frames_file < 0 || samples_file < 0) return 1;
    if (!write_whole(frames_file, (const unsigned char *)"KITFRAME\x80\x02\0\0\x68\x01\0\0", 16)) return 1;
    if (!write_whole(samples_file, (const unsigned char *)"KITSOUND\x44\xAC\0\0\x02\0\0\0", 16)) return 1;
    for (long left = strtol(argv[3], 0, 10); left > 0; left--) {
        put_words(screen, 230400, buffer);
        if (!write_whole(frames_file, buffer, 921600)) return 1;
        put_words(samples, 735, buffer);
        if (!write_whole(samples_file, buffer, 2940)) return 1;
    }
    return 0;
}
