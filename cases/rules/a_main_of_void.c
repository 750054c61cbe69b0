// With a prototype before its body, and one behind it.
void main();

void f() {
    main();
}

void main(void) {
    f();
}

void main();
