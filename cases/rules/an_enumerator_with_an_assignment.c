int a;
enum E { A = a = 1 }; // error 30

void main() { }
