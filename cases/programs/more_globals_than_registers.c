// Globals stand one behind another.
//> out 0x202 0x000009A6
//> out 0x202 0x00000144
//> out 0x202 0x00000005
//> halted
int g0 = 0;
int g1 = 1;
int g2 = 4;
int g3 = 9;
int g4 = 16;
int g5 = 25;
int g6 = 36;
int g7 = 49;
int g8 = 64;
int g9 = 81;
int g10 = 100;
int g11 = 121;
int g12 = 144;
int g13 = 169;
int g14 = 196;
int g15 = 225;
int g16 = 256;
int g17 = 289;
int g18 = 324;
int g19 = 361;
void main() { int s = 0; s += g0; s += g1; s += g2; s += g3; s += g4; s += g5; s += g6; s += g7; s += g8; s += g9; s += g10; s += g11; s += g12; s += g13; s += g14; s += g15; s += g16; s += g17; s += g18; s += g19; g19 = 5; port_out(GPU_ClearColor, s); port_out(GPU_ClearColor, g18); port_out(GPU_ClearColor, g19); }
