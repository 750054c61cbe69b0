void main() { }

int* a = "abc\x4