void main() {
    /* one
       two
       three */ x = 1; // error 40
}
