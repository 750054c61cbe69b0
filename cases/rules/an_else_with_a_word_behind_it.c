#ifndef A
#else A // error 20
#endif

void main() { }
