int give() {
    return halt(); // error 42
}

void main() { }
