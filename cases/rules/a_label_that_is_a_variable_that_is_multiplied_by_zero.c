void main() {
    int n;
    switch (1) {
        case 0 * n + 3: ; // error 48
    }
}
