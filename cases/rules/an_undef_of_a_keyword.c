#undef NULL // error 20

void main() { }
