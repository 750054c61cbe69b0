int[sizeof(int[3][4]) == 3] a; // error 42

void main() { }
