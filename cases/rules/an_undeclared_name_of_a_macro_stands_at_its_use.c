#define TWICE x + x

void main() {
    int a = TWICE; // error 40
}
