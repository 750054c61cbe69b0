enum E { A = E }; // error 41

void main() { }
