void f(int* a);
void f(void* a) { } // error 42

void main() { }
