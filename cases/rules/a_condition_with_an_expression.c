#if 1 // error 20
#endif

void main() { }
