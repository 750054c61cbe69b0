void f(int n) {
    int[n] a; // error 48
}

void main() { }
