int a = 4294967296; // error 13

void main() { }
