void main() {
    do
        1 = 2; // error 43
    while (y);
}
