struct S { int a; };

void main() {
    S s;
    switch (1) {
        case s.a: ; // error 48
    }
}
