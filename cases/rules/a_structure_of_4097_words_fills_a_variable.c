struct Big { int[4097] a; };

void main() {
    Big a;
    Big b = a; // error 50
}
