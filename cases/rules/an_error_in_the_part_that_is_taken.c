#ifdef A
#else
#error there is no A // error 24
#endif

void main() { }
