void main() {
    switch (1) {
        case 1: ;
        case true: ; // error 41
    }
}
