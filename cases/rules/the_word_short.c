short a; // error 32

void main() { }
