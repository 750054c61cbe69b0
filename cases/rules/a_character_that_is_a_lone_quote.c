int a = '''; // error 11

void main() { }
