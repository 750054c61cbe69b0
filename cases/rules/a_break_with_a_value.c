void main() {
    while (1) break 1; // error 30
}
