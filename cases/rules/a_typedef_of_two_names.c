typedef int T, U; // error 30

void main() { }
