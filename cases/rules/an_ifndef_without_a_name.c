#ifndef // error 20
#endif

void main() { }
