enum E { T };
typedef int T; // error 41

void main() { }
