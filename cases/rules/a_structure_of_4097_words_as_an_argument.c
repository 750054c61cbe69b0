struct Big { int[4097] a; };
void f(int a) { }

void main() {
    Big a;
    f(a); // error 50
}
