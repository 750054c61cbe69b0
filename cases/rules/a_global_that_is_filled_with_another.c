int a = 1;
int b = a; // error 48

void main() { }
