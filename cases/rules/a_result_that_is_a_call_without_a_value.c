int f() {
    return halt(); // error 42
}

void main() { }
