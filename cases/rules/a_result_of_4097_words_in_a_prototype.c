struct Big { int[4097] a; };
Big f(); // error 50

void main() { }
