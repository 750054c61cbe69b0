// A write to a text is fault 1.
//b 9
//> fault 1
void main() { int* p = "ab"; *p = 1; }
