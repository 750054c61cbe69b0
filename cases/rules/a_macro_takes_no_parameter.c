#define TWICE(x) x
int a = TWICE(1); // error 30

void main() { }
