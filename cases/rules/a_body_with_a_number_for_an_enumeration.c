enum E { A };
void f(E a);
void f(int a) { } // error 42

void main() { }
