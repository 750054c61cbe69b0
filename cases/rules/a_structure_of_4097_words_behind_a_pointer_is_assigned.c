struct Big { int[4097] a; };

void main() {
    Big a;
    Big* p = &a;
    *p = *p; // error 50
}
