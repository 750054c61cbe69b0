int n;
int a = (n = 3); // error 48

void main() { }
