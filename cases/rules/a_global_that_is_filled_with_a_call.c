int f() {
    return 3;
}
int a = f(); // error 48

void main() { }
