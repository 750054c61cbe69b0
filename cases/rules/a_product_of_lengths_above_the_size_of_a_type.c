void main() {
    int[2048][2049]* a; // error 50
}
