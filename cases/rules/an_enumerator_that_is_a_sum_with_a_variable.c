int n;
enum X { A = 1 + n }; // error 48

void main() { }
