void f();
void f();

void main() {
    f(); // error 44
}
