int a = halt(); // error 42

void main() { }
