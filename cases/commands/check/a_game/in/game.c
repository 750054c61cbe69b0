#include "video.h"

int frame = 0;

void main() {
    while (1) {
        clear_screen(frame);
        frame = frame + 1;
        wait_frame();
    }
}
