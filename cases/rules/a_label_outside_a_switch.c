void main() {
    case 1: ; // error 30
}
