int a = '\xg0'; // error 11

void main() { }
