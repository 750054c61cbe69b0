int[3145729] a; // error 50

void main() { }
