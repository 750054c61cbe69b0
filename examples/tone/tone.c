// A tone for half a second, as tone.asm plays it.
#include "audio.h"
#include "time.h"

void main()
{
    set_sound_loop(true);
    play_sound_in_channel(0, 0);
    sleep(30);
    stop_channel(0);
}
