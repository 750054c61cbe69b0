int a = "abc"; // error 42

void main() { }
