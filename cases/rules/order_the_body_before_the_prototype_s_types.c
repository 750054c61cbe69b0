void f(int a);
void f(bool a) {
    y; // error 40
}

void main() { }
