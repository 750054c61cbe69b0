int[2] a = { 1, NULL }; // error 42

void main() { }
