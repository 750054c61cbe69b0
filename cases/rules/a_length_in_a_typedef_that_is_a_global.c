int n = 3;
typedef int[n] T; // error 48

void main() { }
