int f() {
    return 3;
}
enum X { A = f() }; // error 48

void main() { }
