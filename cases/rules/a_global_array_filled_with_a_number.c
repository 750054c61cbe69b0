int[3] a = 1; // error 42

void main() { }
