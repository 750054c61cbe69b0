int* give() {
    return 0; // error 42
}

void main() { }
