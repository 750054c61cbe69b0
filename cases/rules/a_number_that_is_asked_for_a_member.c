int a = 1.b; // error 14

void main() { }
