void main() {
    switch (1) {
        case 0 && 1 / 0: ; // error 48
    }
}
