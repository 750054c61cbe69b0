void main() {
    do ; while (x); // error 40
}
