void main() {
    int counter;
    Counter = 1; // error 40
}
