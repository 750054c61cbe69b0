struct Big { int[4097] a; };

void main() {
    Big a;
    do ; while (a); // error 50
}
