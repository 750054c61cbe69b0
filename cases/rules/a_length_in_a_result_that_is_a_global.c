int n = 3;
int[n]* f(); // error 48

void main() { }
