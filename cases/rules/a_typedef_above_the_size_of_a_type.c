typedef int[4194305] T; // error 50

void main() { }
