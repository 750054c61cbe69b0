void main() {
    switch (1) {
        case 1: x; // error 40
    }
}
