void main() {
    if (1)
        continue; // error 49
}
