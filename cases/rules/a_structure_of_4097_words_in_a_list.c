struct Big { int[4097] a; };
struct Of { Big a; };

void main() {
    Big a;
    Of b = { a }; // error 50
}
