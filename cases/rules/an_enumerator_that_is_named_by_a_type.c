typedef int A;
enum E { A }; // error 30

void main() { }
