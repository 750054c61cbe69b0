// The right operand of && and || is evaluated only where it decides.
//> out 0x202 0x00000000
//> out 0x202 0x00000001
//> out 0x202 0x00000000
//> out 0x202 0x00000016
//> halted
int n;
bool t() { n++; return true; }
bool f() { n += 10; return false; }
void main() { bool a = f() && t(); bool b = t() || f(); bool c = t() && f(); port_out(GPU_ClearColor, a); port_out(GPU_ClearColor, b); port_out(GPU_ClearColor, c); port_out(GPU_ClearColor, n); }
