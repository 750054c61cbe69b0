#ifndef true // error 20
#endif

void main() { }
