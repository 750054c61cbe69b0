int a = 0x1.; // error 14

void main() { }
