typedef int T;
bool T; // error 30

void main() { }
