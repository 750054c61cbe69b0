int a = 1 / 0; // error 48

void main() { }
