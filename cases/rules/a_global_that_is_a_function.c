void a() { }
int a; // error 41

void main() { }
