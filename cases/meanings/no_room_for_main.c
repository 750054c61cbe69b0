// The first call has no tokens.
//b 20
//f 5000000
//> deep 0 0
void main() { }
