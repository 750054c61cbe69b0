void main() {
    int n = 3;
    switch (1) {
        case n: ; // error 48
    }
}
