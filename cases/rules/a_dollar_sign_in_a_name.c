int a$b; // error 10

void main() { }
