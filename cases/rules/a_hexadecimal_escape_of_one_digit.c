int* a = "\x4"; // error 11

void main() { }
