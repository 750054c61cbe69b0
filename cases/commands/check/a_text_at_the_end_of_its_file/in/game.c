void main() { }

int* a = "abc