void main() {
    void* a = (int[x]*) NULL; // error 40
}
