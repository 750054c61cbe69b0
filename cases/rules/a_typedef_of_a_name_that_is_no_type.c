typedef S T; // error 30

void main() { }
