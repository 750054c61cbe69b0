void main() {
    if (1) ;
    else
        break; // error 49
}
