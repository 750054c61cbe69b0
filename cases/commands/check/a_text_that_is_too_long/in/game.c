int[3] a = "abc";
void main() { }
