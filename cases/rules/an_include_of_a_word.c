#include video // error 20

void main() { }
