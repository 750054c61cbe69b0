struct Q { int a; int[3] b; };
union U { int i; Q q; };
int[sizeof(U) == 5] a; // error 42

void main() { }
