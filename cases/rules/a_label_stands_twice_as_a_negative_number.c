void main() {
    switch (1) {
        case 0xFFFFFFFF: ;
        case -1: ; // error 41
    }
}
