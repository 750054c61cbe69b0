struct Big { int[4097] a; };
Big a;
Big b = a; // error 50

void main() { }
