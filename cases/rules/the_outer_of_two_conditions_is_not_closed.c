#ifndef A // error 23
#ifndef B
#endif

void main() { }
