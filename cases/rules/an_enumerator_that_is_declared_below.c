int[A] a; // error 40
enum E { A = 3 };

void main() { }
