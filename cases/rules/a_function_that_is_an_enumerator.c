enum E { A };
void A() { } // error 41

void main() { }
