struct halt { int a; }; // error 41

void main() { }
