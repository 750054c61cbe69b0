int[4]* p = &"abc"; // error 48

void main() { }
