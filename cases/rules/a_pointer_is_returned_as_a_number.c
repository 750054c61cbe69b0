int give() {
    int* p;
    return p; // error 42
}

void main() { }
