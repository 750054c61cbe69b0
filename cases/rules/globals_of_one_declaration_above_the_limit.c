int[1572865] a,
    b; // error 50

void main() { }
