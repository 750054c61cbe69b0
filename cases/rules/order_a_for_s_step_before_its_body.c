void main() {
    for (;
        ;
        2 = 3) // error 43
        y;
}
