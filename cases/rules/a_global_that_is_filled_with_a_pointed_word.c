int* p;
int a = *p; // error 48

void main() { }
