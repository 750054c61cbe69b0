// Arguments are evaluated before the call is refused for its bound.
//b 1
//< 5 7
//> in 1026 5
//> out of bound
int f(int a) { return a; }
void main() { f(port_in(INP_GamepadLeft)); }
