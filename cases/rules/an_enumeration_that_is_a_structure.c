struct E { int a; };
enum E { A }; // error 41

void main() { }
