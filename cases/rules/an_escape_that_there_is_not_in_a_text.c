int* a = "\q"; // error 11

void main() { }
