int f();
bool f(); // error 42

void main() { }
