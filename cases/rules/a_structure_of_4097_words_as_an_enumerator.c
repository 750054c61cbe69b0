struct Big { int[4097] a; };
Big a;
enum E { A = a }; // error 50

void main() { }
