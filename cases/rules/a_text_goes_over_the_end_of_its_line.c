int* a = "abc; // error 11
";

void main() { }
