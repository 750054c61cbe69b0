struct Q { int a; int[3] b; };
int[sizeof(Q*) == 4] a; // error 42

void main() { }
