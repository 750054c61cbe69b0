struct Big { int[4097] a; };

void main() {
    Big a;
    for (a; ; ) break; // error 50
}
