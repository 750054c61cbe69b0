int a = { 1 }; // error 42

void main() { }
