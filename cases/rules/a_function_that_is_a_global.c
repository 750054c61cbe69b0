int a;
void a() { } // error 41

void main() { }
