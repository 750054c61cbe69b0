enum E { ZERO };
enum X { A = 1 / ZERO }; // error 48

void main() { }
