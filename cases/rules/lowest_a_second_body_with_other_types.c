void f() { }
int f(int a) { // error 41
    return a;
}

void main() { }
