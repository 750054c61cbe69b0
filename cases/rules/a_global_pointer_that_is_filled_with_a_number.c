int* a = 0; // error 42

void main() { }
