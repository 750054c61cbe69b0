void main() {
    switch (1) {
        case 1: ;
        case 2: ;
        case 1: ; // error 41
    }
}
