int a = 0x; // error 30

void main() { }
