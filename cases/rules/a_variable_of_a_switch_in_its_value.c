void main() {
    switch (a) { // error 40
        case 1: int a;
    }
}
