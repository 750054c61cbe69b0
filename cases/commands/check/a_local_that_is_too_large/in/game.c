void main() {
    int[1000001] a;
}
