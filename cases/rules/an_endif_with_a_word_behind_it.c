#ifdef A
#else
#endif A // error 20

void main() { }
