int f(int); // error 30

void main() { }
