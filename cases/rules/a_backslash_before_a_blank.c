int a = 1 \ + 2; // error 10

void main() { }
