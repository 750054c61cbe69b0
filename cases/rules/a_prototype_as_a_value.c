int f();

void main() {
    int a = f; // error 42
}
