union U { U a; }; // error 47

void main() { }
