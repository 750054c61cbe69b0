enum E { A = A }; // error 40

void main() { }
