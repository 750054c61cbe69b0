void main() {
    switch (1) {
        case 1: int a;
        case 2: int a; // error 41
    }
}
