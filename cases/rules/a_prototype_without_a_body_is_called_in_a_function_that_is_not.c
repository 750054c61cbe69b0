void f();
void g() {
    f(); // error 44
}

void main() { }
