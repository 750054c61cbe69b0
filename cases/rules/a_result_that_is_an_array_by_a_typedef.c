typedef int[3] T;
T f(); // error 42

void main() { }
