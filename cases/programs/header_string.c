// Texts by the header string.h.
//> out 0x202 0x00000005
//> out 0x202 0x00000065
//> out 0x202 0x00000000
//> out 0x202 0x00000000
//> out 0x202 0xFFFFFFFF
//> out 0x202 0x00000001
//> out 0x202 0x00000000
//> halted
#include "string.h"
void main() { int[20] a; strcpy(a, "ab"); strcat(a, "cde"); port_out(GPU_ClearColor, strlen(a)); port_out(GPU_ClearColor, a[4]); port_out(GPU_ClearColor, a[5]); port_out(GPU_ClearColor, strcmp(a, "abcde")); port_out(GPU_ClearColor, strcmp(a, "abd")); port_out(GPU_ClearColor, strcmp("b", "a")); port_out(GPU_ClearColor, strlen("")); }
