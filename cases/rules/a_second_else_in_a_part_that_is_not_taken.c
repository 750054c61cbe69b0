#ifdef A
#ifdef B
#else
#else // error 20
#endif
#endif

void main() { }
