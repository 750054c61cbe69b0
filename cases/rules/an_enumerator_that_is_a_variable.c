int n = 3;
enum X { A = n }; // error 48

void main() { }
