typedef int T;
void T() { } // error 30

void main() { }
