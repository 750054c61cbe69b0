int 1;
#error // error 24

void main() { }
