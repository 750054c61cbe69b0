void main() {
    switch (1) {
        case NULL: ; // error 48
    }
}
