void main() {
    int a;
    switch (1) {
        case a = 1: ; // error 30
    }
}
