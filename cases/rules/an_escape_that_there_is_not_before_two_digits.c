int* a = "\y41"; // error 11

void main() { }
