enum { A }; // error 30

void main() { }
