int f;
void f() {
    y; // error 40
}

void main() { }
