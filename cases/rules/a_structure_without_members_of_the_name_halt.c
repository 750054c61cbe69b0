struct halt; // error 41

void main() { }
