void main() {
    if (1) ;
    else
        x; // error 40
}
