enum E { A };
enum F { B };
void f(E a);
void f(F a) { } // error 42

void main() { }
