enum E { A = B, B }; // error 40

void main() { }
