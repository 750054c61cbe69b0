// Frames by the header time.h.
//< 99
//> wait
//> wait
//> wait
//> in 0x002 0x00000063
//> out 0x202 0x00000063
//> halted
#include "time.h"
void main() { sleep(2); end_frame(); port_out(GPU_ClearColor, get_frame_counter()); }
