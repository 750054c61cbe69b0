#undef A B // error 20

void main() { }
