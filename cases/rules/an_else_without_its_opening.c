#else // error 20

void main() { }
