void main() {
    switch (1) {
        case 1 / 0: ; // error 48
    }
}
