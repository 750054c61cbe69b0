void main() {
    {
        int[600000] a;
    }
    {
        int[400001] a; // error 50
    }
}
