int a = 4294967296.0; // error 13

void main() { }
