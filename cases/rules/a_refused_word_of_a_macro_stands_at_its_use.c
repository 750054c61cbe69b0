#define real float

void main() {
    real f; // error 32
}
