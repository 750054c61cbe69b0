void f() {
    break; // error 49
}
void g() {
    while (1) f();
}

void main() { }
