void main() {
    for (;
        *1; // error 42
        2 = 3) ;
}
