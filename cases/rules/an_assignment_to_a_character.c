void main() {
    'b' = 1; // error 43
}
