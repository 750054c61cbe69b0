void main() {
    if (1)
        break; // error 49
}
