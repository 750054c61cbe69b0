void main() {
    for (int a = 0; a < 1; ++a) ;
    a = 1; // error 40
}
