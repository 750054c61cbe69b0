bool b;
int* a = &b; // error 42

void main() { }
