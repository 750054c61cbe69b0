void main() { }

int a // error 30
