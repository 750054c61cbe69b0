// Operators that have no other way round, on a variable that lives on and a number; the last one divides by 0.
//> out 0x202 0x0000054D
//> out 0x202 0x000004D6
//> out 0x202 0x0000002D
//> out 0x202 0xFFFFFFFE
//> out 0x202 0xFFFFFFF6
//> fault 6 at 0x
int tenth(int x) { return x / 10 + x; }
int digit(int x) { return x % 10 + x; }
int eight_times(int x) { return (x << 3) + x; }
int less(int x) { return (x - 3) * x; }
int none(int x) { return x / 0 + x; }
void main() { port_out(GPU_ClearColor, tenth(1234)); port_out(GPU_ClearColor, digit(1234)); port_out(GPU_ClearColor, eight_times(5)); port_out(GPU_ClearColor, less(2)); port_out(GPU_ClearColor, tenth(-9) - 1); port_out(GPU_ClearColor, none(5)); }
