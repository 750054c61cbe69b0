int f();
bool f() { // error 42
    return true;
}

void main() { }
