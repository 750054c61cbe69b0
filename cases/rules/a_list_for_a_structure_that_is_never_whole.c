struct S;

void main() {
    S s = { 1 }; // error 42
}
