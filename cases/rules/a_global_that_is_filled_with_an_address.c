int a;
int* p = &a; // error 48

void main() { }
