#include // error 20

void main() { }
