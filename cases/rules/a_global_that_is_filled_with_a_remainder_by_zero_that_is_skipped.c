int a = 1 || 1 % 0; // error 48

void main() { }
