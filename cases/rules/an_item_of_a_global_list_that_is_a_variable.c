int n;
int[2] a = { 1, n }; // error 48

void main() { }
