void main() {
    do ; while (0);
    continue; // error 49
}
