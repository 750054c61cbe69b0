enum E { ZERO };
int a = 1 / ZERO; // error 48

void main() { }
