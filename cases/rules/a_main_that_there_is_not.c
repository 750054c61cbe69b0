int a;

void f() {
    a = 1;
} // error 46
