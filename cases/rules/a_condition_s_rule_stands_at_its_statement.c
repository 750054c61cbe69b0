struct S { int a; };

void main() {
    S s;
    if ( // error 42
        s
    ) ;
}
