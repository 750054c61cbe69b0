#ifdef A B // error 20
#endif

void main() { }
