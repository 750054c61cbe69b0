void take(bool a) { }

void main() {
    take(NULL); // error 42
}
