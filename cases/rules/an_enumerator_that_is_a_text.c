enum X { A = "abc" }; // error 48

void main() { }
