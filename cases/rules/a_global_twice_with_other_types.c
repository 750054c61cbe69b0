int a;
bool a; // error 41

void main() { }
