int a = NULL; // error 42

void main() { }
