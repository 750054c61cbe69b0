int[n] a; // error 40

void main() { }
