struct S { int a; };

void main() {
    S s;
    if (s) ;
    else
        1 = 2; // error 43
}
