struct Big { int[4097] a; };

void main() {
    Big a;
    switch (1) {
        case a: ; // error 50
    }
}
