int a;

void main() {
    a(); // error 42
}
