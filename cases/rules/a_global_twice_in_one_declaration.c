int a,
    a; // error 41

void main() { }
