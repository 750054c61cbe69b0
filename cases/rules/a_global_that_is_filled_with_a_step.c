int n;
int a = ++n; // error 48

void main() { }
