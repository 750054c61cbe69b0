enum X { A = 1 || 1 % 0 }; // error 48

void main() { }
