#ifdef A // error 23
#else

void main() { }
