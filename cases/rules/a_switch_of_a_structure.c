struct S { int a; };

void main() {
    S s;
    switch (s) { } // error 42
}
