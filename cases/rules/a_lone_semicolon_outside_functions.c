; // error 30

void main() { }
