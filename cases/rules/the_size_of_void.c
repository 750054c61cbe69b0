void main() {
    int a = sizeof(void); // error 30
}
