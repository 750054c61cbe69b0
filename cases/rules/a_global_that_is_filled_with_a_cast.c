int a = (int) 3; // error 48

void main() { }
