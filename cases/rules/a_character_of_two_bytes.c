int a = 'ab'; // error 11

void main() { }
