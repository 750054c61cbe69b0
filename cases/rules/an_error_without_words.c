#error // error 24

void main() { }
