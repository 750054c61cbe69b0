#define int bool // error 20

void main() { }
