int f() {
    return NULL; // error 42
}

void main() { }
