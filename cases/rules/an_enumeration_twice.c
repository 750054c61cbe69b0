enum E { A };
enum E { B }; // error 41

void main() { }
