struct S { S[2] a; }; // error 47

void main() { }
