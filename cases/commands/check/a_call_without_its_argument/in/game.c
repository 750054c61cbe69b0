int f(int a) { return a; }
void main() { f(); }
