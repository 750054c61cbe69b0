enum E { A };
enum F { A }; // error 41

void main() { }
