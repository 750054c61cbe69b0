int a = "ab" - "ab"; // error 48

void main() { }
