enum E { F };
enum F { A }; // error 41

void main() { }
