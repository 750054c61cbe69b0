void A();
enum E { A }; // error 41

void main() { }
