void E();
enum E { A }; // error 41

void main() { }
