enum E { halt }; // error 41

void main() { }
