struct A { A a; };
void main() { }
