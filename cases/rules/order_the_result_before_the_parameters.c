int[NULL]* // error 48
    f(int a, int a);

void main() { }
