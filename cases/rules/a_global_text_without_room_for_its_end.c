int[3] a = "abc"; // error 42

void main() { }
