enum E { A };
int A; // error 41

void main() { }
