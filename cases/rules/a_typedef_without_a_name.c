typedef int; // error 30

void main() { }
