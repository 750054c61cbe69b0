enum E { }; // error 30

void main() { }
