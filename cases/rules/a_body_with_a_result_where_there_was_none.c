void f();
int f() { // error 42
    return 1;
}

void main() { }
