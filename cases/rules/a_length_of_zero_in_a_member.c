struct T { int[0] a; }; // error 42

void main() { }
