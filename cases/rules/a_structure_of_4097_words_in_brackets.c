struct Big { int[4097] a; };

void main() {
    Big a;
    ( // error 50
        a
    );
}
