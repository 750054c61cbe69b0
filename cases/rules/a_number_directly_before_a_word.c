int a = 1b; // error 30

void main() { }
