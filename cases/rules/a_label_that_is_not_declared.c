void main() {
    switch (1) {
        case A: ; // error 40
    }
}
