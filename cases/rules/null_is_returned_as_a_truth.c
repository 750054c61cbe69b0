bool give() {
    return NULL; // error 42
}

void main() { }
