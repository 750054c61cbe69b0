void halt(); // error 41

void main() { }
