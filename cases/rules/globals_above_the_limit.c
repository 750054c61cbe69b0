int[3145728] a;
int b; // error 50

void main() { }
