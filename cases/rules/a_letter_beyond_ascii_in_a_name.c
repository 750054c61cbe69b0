int café; // error 10

void main() { }
