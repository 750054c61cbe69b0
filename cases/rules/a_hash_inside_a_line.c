int a = 1 #define B // error 30

void main() { }
