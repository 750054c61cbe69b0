void main() {
    for (y; // error 40
        *1;
        2 = 3) ;
}
