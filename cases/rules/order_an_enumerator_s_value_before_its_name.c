enum E { A, A = y }; // error 40

void main() { }
