void f() {
}

struct S {
    int a;
}
; // error 46
// behind it
