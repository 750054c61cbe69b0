int a = "abc"[0]; // error 48

void main() { }
