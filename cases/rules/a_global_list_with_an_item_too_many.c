int[2] a = { 1, 2, 3 }; // error 42

void main() { }
