enum E { ZERO };

void main() {
    int[1 / ZERO] a; // error 48
}
