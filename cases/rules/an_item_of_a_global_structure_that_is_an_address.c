struct P { int* p; };
int a;
P s = { &a }; // error 48

void main() { }
