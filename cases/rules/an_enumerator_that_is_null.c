enum X { A = NULL }; // error 48

void main() { }
