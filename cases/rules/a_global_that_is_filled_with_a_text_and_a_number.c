int* p = "abc" + 1; // error 48

void main() { }
