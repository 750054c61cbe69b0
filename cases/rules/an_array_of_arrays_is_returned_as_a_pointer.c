int* give() {
    int[2][2] vv;
    return vv; // error 42
}

void main() { }
