#ifdef A
#else
#else // error 20
#endif

void main() { }
