void main() {
    int n;
    switch (1) {
        case 1 + n: ; // error 48
    }
}
