typedef int[0] T; // error 42

void main() { }
