int n;
int a = 0 * n + 3; // error 48

void main() { }
