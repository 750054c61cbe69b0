goto a; // error 32

void main() { }
