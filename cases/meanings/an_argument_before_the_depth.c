// Arguments are evaluated before the call is refused for its room.
//b 2
//< 5 7
//f 4000000 4000000
//> in 1026 5
//> deep 16 22
int f(int a) { return a; }
void main() { f(port_in(INP_GamepadLeft)); }
