int f() {
    return x; // error 40
}

void main() { }
