int a = !NULL; // error 48

void main() { }
