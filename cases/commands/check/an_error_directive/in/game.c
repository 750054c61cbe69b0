#ifndef A
#error A is wanted
#endif
void main() { }
