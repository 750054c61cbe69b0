int a = b; // error 40

void main() { }
