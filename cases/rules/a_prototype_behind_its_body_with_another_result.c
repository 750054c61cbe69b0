int f() {
    return 1;
}
bool f(); // error 42

void main() { }
