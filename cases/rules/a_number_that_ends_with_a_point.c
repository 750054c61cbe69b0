int a = 1.; // error 14

void main() { }
