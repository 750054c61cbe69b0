int f() {
    return 3;
}
int a = 2 * f(); // error 48

void main() { }
