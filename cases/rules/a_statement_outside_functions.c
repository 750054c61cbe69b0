int a;
a = 1; // error 30

void main() { }
