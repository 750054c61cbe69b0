struct S { int[4] a; };

void main() {
    S a = "abc"; // error 42
}
