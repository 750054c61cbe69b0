void main() {
    int n;
    switch (1) {
        case ++n: ; // error 48
    }
}
