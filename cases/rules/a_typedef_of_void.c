typedef void T; // error 30

void main() { }
