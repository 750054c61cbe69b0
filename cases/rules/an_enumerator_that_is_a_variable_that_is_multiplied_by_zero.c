int n;
enum X { A = 0 * n + 3 }; // error 48

void main() { }
