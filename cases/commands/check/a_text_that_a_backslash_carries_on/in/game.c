void main() {
    int* a = "one \
two";
}
