bool n = 3;
int a = n; // error 48

void main() { }
