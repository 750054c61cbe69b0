// A copy of a structure into a text faults at its first word.
//> fault 1 at 0x
struct S { int x; int y; };
void main() { S s = { 1, 2 }; S* p = (S*)"ab"; *p = s; }
