void take(int a);

void main() {
    take(NULL); // error 42
}

void take(int a) { }
