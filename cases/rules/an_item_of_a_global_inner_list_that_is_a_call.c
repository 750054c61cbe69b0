int f() {
    return 1;
}
int[2][2] a = { { 1, 2 }, { 3, f() } }; // error 48

void main() { }
