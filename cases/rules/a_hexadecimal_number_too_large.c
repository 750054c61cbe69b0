int a = 0x100000000; // error 13

void main() { }
