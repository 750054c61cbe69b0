void main() {
    switch (1) {
        case 1: int a;
    }
    a = 1; // error 40
}
