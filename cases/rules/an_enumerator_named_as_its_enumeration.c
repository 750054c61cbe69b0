enum E { E }; // error 41

void main() { }
