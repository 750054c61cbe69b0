int[3] a = NULL; // error 42

void main() { }
