int a = 1.5; // error 14

void main() { }
