void main() {
    while (0) ;
    break; // error 49
}
