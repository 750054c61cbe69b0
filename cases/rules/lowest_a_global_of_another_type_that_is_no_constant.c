int a;
int* p = a; // error 42

void main() { }
