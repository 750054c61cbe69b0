int* give() {
    bool* q;
    return q; // error 42
}

void main() { }
