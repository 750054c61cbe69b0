int a;
int a = a; // error 48

void main() { }
