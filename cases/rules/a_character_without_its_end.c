int a = 'a; // error 11

void main() { }
