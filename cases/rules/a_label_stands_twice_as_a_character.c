void main() {
    switch (1) {
        case 65: ;
        case 'A': ; // error 41
    }
}
