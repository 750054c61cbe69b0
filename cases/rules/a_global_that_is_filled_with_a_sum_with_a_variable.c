int n;
int a = 1 + n; // error 48

void main() { }
