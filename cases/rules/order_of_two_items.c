int a = y; // error 40
int a;

void main() { }
