int[3] a;
int* p = a; // error 48

void main() { }
