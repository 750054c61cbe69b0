// A macro may stand for the front of a call.
//> out 0x202 0x00000010
//> halted
#define P port_out(GPU_ClearColor,
void main() { P 0x10); }
